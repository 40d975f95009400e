# Devices that are full, closed or gone, and too little memory. share/test.sh reads this file: it works in the room there, with its functions and its files.

# no status of a verdict if the report was not written, or the history not read
for files in old.csv 'old.csv old.csv'; do
  for command in "check $files" "check --quiet $files"; do
    expect "$command, and a full disk" 4 "" sh -c "./second $command >/dev/full"
    expect "$command, and no output" 4 "" sh -c "./second $command >&-"
    expect "$command, and a reader that has gone" 4 "" sh -c "{ sleep 0.3; ./second $command; echo \$? >gone; } | :
      exit \$(cat gone)"
  done
done
for command in "check --cut old.csv" "explain --cut old.csv" "shrink old.csv" "shrink --draw old.csv" "shrink --map old.csv" "explain old.csv" "explain --draw old.csv" "explain --faults 3 old.csv" "draw old.csv" "draw --text old.csv" "stats old.csv" "stats --format json old.csv" "stats old.csv old.csv" "record --rounds 2" --version; do
  expect "$command, and a full disk" 4 "" sh -c "./second $command >/dev/full"
  expect "$command, and no output" 4 "" sh -c "./second $command >&-"
  expect "$command, and a reader that has gone" 4 "" sh -c "{ sleep 0.3; ./second $command; echo \$? >gone; } | :
    exit \$(cat gone)"
  expect_said "nothing" ""
done
for command in check "check -" "check --cut -" "explain --cut -" "shrink -" "shrink --draw -" "shrink --map -" "explain -" "explain --draw -" "explain --faults 3 -" "draw -" "draw --text -" "stats -" "stats --format json -"; do
  expect "$command, and no input" 4 "" sh -c "./second $command <&-"
  expect_said "the reason" "snapjudge: read failed"
done
expect "a file beside no input" 4 "$named_inversion" sh -c './second check - old.csv <&-'
expect_said "the reason" "snapjudge: -: read failed"
expect "two files, and no input" 2 "$named_inversion$named_stale" sh -c './second check old.csv "a b.csv" <&-'
expect "two files, and no errors" 4 "$named_inversion" sh -c './second check old.csv none.csv 2>&-'
expect "a pattern, and no file" 4 "" ./second check "*"

# Under each limit on memory, from too little to ample, a check says that it ran out, and writes nothing, or its report is whole. Both
# come. If the program can't be loaded there is nothing to see.
under_limits() {
  refused=0 whole=0
  for limit in $(seq 2000 8 6000); do
    (ulimit -v "$limit" && exec "$top/built/snapjudge" check "$examples/atomic-run.csv") >report 2>reason
    case "$?: $(cat reason)" in
      "0: ") cmp report "$examples/atomic-run.report" && whole=$((whole + 1)) || return ;;
      "4: snapjudge: out of memory") [ ! -s report ] && refused=$((refused + 1)) || return ;;
      127:*) ;;
      *) cat report reason && return 1 ;;
    esac
  done
  [ "$refused" -gt 0 ] && [ "$whole" -gt 0 ]
}
expect "limits on memory" 0 "" under_limits
