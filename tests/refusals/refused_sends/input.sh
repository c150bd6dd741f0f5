echo "h0 send 0 1 -"
printf 'h0 send 0 1 '
head -c 8192 /dev/zero | tr '\0' A
echo
echo "h0 send 0 0 01"
echo "h0 send 0 9 -"
