# A second judge, in Python. share/test.sh reads this file: it works in the room there, with its functions and its files.

# The judge in Python, which follows docs/FORMAT.md, says of each example what the program says, and names the same fault of a
# broken text. The texts are the page's own: those of its commands, a fault of each name among them.
judged_as_by_hand() {
  judged=$("$top/snapjudge" check <"$2")
  status=$?
  expect "a second judge of $1" "$status" "$judged
" sh -c 'python3 -B "$1" <"$2"' sh "$examples/judge.py" "$2"
}
if has python3 "the second judge"; then
  for history in "$examples"/*.csv; do
    judged_as_by_hand "${history##*/}" "$history"
  done
  expect "the second judge has at most 100 lines" 0 "" test "$(wc -l <"$examples/judge.py")" -le 100
  expect "a second judge of a file by name" 3 "refused record 4: number
" python3 -B "$examples/judge.py" "$examples/skipped-number.csv"
  expect "a file by name that is not there" 4 "" python3 -B "$examples/judge.py" none.csv
  expect_said "its name and the reason" "judge.py: none.csv: No such file or directory"
  expect "the second judge's help" 0 "usage: judge.py [FILE]
" python3 -B "$examples/judge.py" --help
  for words in -x "old.csv old.csv"; do
    expect "the second judge's words $words" 5 "" python3 -B "$examples/judge.py" $words
    expect_said "the usage" "usage: judge.py [FILE]"
  done
  expect "the second judge of thousands of texts" 0 "4076 passed, 0 failed
" python3 -B "$top/share/test-judge.py" "$top/snapjudge"
  expect "a search through all orders of histories with many writers" 0 "3000 passed, 0 failed
" python3 -B "$top/share/test-writers.py" "$top/snapjudge"
  expect "a search through all orders of stores with versions" 0 "3000 passed, 0 failed
" python3 -B "$top/share/test-stores.py" "$top/snapjudge"
  expect "counts of hundreds of texts" 0 "1217 passed, 0 failed
" python3 -B "$top/share/test-stats.py" "$top/snapjudge"
  sed -n 's/^\$ \(.*\) | \.\/snapjudge [a-z]*$/\1/p' "$top/docs/FORMAT.md" >texts
  while IFS= read -r text; do
    sh -c "$text" >text
    judged_as_by_hand "$text" text
    cat out >>named
  done <texts
  for word in header fields toomany at event process op data repeated busy idle otherop writer number toolong; do
    expect "a text whose fault is $word" 0 "" grep -q ": $word\$" named
  done
  plain='event,process,op,data\n' stamped='at,event,process,op,data\n'
  for text in '' '\n\n' '\357\273\277\357\273\277'"$plain" '\357\273\277'"$plain" "$plain"'"begin","0",view,""' "$plain"'begin,0,view' \
    "$plain"'begin,0,"vi"ew,' "$plain"'be"gin,0,view,' "$plain"'"be""gin",0,view,' "$plain"'begin,0,view,"' "$plain\n \n" \
    "$plain"'begin,00,view,' "$plain"'begin,+1,view,' "$plain"'begin,,view,' "$plain"'begin,0,update,' "$plain"'begin,0,update,0:0:1' \
    "$plain"'begin,0,update,256:1:1' "$plain"'begin,0,update,255:1:4294967295' "$plain"'begin,0,update,0:1:4294967296' \
    "$plain"'begin,0,update,0:1:1 1:1:1' "$plain"'begin,0,update,0:1:1:1' "$plain"'begin,0,view,\rend,0,view,0:1:1  1:1:1\r' \
    "$plain"'begin,0,view,\rend,0,view,1:1:1 1:1:1\r' "$plain"'begin,0,view,\r\nend,0,view,0:1:1 7:2:0\r\n' "$plain"'end,0,update,\nx' \
    "$plain"'begin,0,update,0:1:1\nend,0,update,\nbegin,0,update,0:1:1' "$stamped"'18446744073709551615,begin,0,view,' \
    "$stamped"'18446744073709551616,begin,0,view,' "$stamped"'5,begin,0,view,\n1,begin,0,view,\n5,end,0,view' \
    "$stamped"'5,begin,0,view,\n1,begin,0,view,\n3,begin,0,view,' "$stamped"'2,end,0,view,\n1,end,1,view,\n0,begin,0,update,0:2:0'; do
    printf "$text" >text
    judged_as_by_hand "$text" text
  done
fi
