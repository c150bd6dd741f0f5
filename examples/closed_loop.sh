coproc bus { ./linsim live examples/door_zone.ldf; }
ask() {     # writes a line, and prints the last line of its answer
  echo "$*" >&"${bus[1]}"
  while read -t 60 -r answer <&"${bus[0]}"; do
    case $answer in "# "*) echo "${answer#"# "}"; return ;; esac
  done
  return 1
}
ask write WinTarget 200
for position in 180 190 200; do
  ask write WinPos $position > /dev/null
  ask slots 20 until signal DCU WinPos $position
done
ask '? time'
