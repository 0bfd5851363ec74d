# Standard input is a pipe whose bytes come in several parts.
{ printf '.profile 1;.fun'; sleep 0.1 2>/dev/null || sleep 1; printf 'ction main(){Null RetC}'; } | "$1" check
