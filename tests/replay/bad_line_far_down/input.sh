head -c 16777215 /dev/zero | tr "\0" "\n"
printf x
