. ../../pieces
printf '%s' '.profile 1;.function main(){'
copies 1000 '.try{Nop Jmp L}.catch{PopC Jmp L}'
printf '%s' 'L:Null RetC}'
