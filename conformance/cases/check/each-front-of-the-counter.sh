# Each front of the text of the counter: two spell it all, the first function alone lacks its class, and the profile
# alone is a text; each other is a bad text, at a place that is no later than its end.
text=counter.hhas
length=$(($(wc -c <"$text")))
end=0
while [ "$end" -le "$length" ]; do
    line=$(head -c "$end" "$text" | { "$1" check 2>&1; echo " status $?"; })
    case $line in
        'bad text at '*' status 65')
            at=${line#bad text at }
            at=${at%%[!0-9]*}
            [ "$at" -le "$end" ] || echo "a front of $end bytes: $line"
            ;;
        *) echo "$end:" $line ;;
    esac
    end=$((end + 1))
done
