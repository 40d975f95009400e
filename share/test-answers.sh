# What each command says: its usage, verdicts, witnesses, explanations, pictures and objects. share/test.sh reads this file: it works in the room there, with its functions and its files.

tells() {
  expect "the words $1" 5 "" ./second $1
  cp err help
  expect "$1 tells $2" 0 "" grep -qF "$2" help
}
for words in --help -h help; do
  tells "$words" "snapjudge check first.csv second.csv"
  tells "$words" "snapjudge check --follow --idle 60 grows.csv"
  tells "$words" "snapjudge --version"
done
tells "check --help" "snapjudge check [OPTIONS] [FILE]..."
tells "shrink --help" "snapjudge shrink [OPTIONS] [FILE]"
tells "explain old.csv --help" "snapjudge explain [OPTIONS] [FILE]"
tells "stats old.csv --help" "snapjudge stats [OPTIONS] [FILE]..."
tells "draw --svg --help" "snapjudge draw [OPTIONS] [FILE]"
tells "draw --dark --help" "Draw with light ink on a dark ground"
tells "explain --all --help" "List all entries of the views of a fault"
tells "check --help" "Cut the updates of a store with versions"
tells "explain --help" "Cut the updates of a store with versions"
for file in old.csv none.csv; do
  expect "$file without a command" 5 "" ./second $file
  expect_said "the tip" "error: to judge a file, write: snapjudge check $file"
done
expect "a file to record" 5 "" ./second record --rounds 3 old.csv
cp err help
expect "the reason" 0 "" grep -qF "unexpected argument 'old.csv'" help
version=$(cat "$top/VERSION")
expect "the version" 0 "snapjudge $version
" ./second --version

expect "the verdicts alone" 1 "regular yes
monotone no
atomic no
" ./second check --quiet old.csv
expect "as many views as are asked for" 1 "$inversion" ./second check --views 2 old.csv
expect "more views than there are" 3 "" ./second check old.csv --views 3
expect_said "the reason" "refused: fewer than 3 views"
expect "more views than one of two files has" 3 "$named_inversion" ./second check --views 2 old.csv "a b.csv"
expect_said "the file and the reason" "a b.csv: refused: fewer than 2 views"

# What is left of each example: all of it, except for two. One is the stale view beside which a value was shown that nobody
# wrote. The other is the calls of a recorded run that its first fault does not need.
for history in "$examples"/*.csv; do
  name=${history##*/}
  left=$(cat "$history" && printf .)
  case $name in
    atomic-run* | pending-update-seen* | view-beside-update*) status=0 ;;
    missed-update* | new-old-inversion* | views-disagree*) status=1 ;;
    skipped-number*) status=3 left="refused record 4: number
." ;;
    value-nobody-wrote*) status=2 left="event,process,op,data
begin,0,update,0:1:7
end,0,update,
begin,2,view,
end,2,view,0:1:9
." ;;
    recorded-[12].*) status=1 left="event,process,op,data
begin,1,view,
begin,0,update,0:1:1
end,0,update,
begin,2,update,2:1:131074
end,2,update,
end,1,view,2:1:131074
." ;;
    recorded-3.*) status=1 left="event,process,op,data
begin,2,view,
begin,0,update,0:1:1
end,0,update,
begin,1,update,1:1:65537
end,1,update,
end,2,view,1:1:65537
." ;;
    *) status=2 ;;
  esac
  expect "the witness of $name" "$status" "${left%.}" ./second shrink "$history"
done
expect "a witness of standard input" 3 "refused record 1: header
" ./second shrink
expect "a witness of a file that is not there" 4 "" ./second shrink none.csv
expect "a witness of two files" 5 "" ./second shrink old.csv "a b.csv"
cp err help
expect "the reason" 0 "" grep -qF "unexpected argument 'a b.csv'" help

# What is said of each example, counted by hand: the records are its lines.
for history in "$examples"/*.csv; do
  name=${history##*/}
  case $name in
    atomic-run*) status=0 said="atomic: in this order each view shows the latest updates before it
  call 1 of process 0, records 2 and 3: update 0:1:10
  call 3 of process 2, records 5 and 7: view 0:1:10
  call 2 of process 1, records 4 and 11: update 1:1:20
  call 4 of process 0, records 6 and 8: update 0:2:11
  call 5 of process 3, records 9 and 10: view 0:2:11 1:1:20
" ;;
    missed-update*) status=1 said="regular, and not atomic
write: view 1 shows update 1:1, and misses update 0:1, which had ended before that one began
  call 1 of process 2, records 2 and 7: view 1:1:6
  call 2 of process 0, records 3 and 4: update 0:1:5
  call 3 of process 1, records 5 and 6: update 1:1:6
" ;;
    new-old-inversion*) status=1 said="regular, and not atomic
read: view 2 shows more of component 0 than view 3, and had ended before that view began
  view 2 shows 0:1; view 3 shows 0:0
  call 2 of process 1, records 3 and 4: view 0:1:7
  call 3 of process 2, records 5 and 6: view
  call 1 of process 0, records 2 and 7: update 0:1:7
" ;;
    pending-update-seen*) status=0 said="atomic: in this order each view shows the latest updates before it
  call 1 of process 0, record 2, pending: update 0:1:3
  call 3 of process 2, records 4 and 5: view 0:1:3
" ;;
    recorded-[12].*) status=1 said="regular, and not atomic
write: view 4 shows update 2:2, and misses update 0:1, which had ended before that one began
  call 4 of process 1, records 7 and 15: view 1:1:65537 2:2:131074
  call 5 of process 0, records 8 and 9: update 0:1:1
  call 7 of process 2, records 12 and 13: update 2:2:131074
" ;;
    recorded-3.*) status=1 said="regular, and not atomic
write: view 2 shows update 1:1, and misses update 0:1, which had ended before that one began
  call 2 of process 2, records 4 and 10: view 1:1:65537 2:1:131073
  call 3 of process 0, records 5 and 6: update 0:1:1
  call 5 of process 1, records 8 and 9: update 1:1:65537
" ;;
    skipped-number*) status=3 said="refused record 4: number
an update has the next number of its component, which is one more than the updates of it that began before
  record 4 has the fields \"begin\" \"0\" \"update\" \"0:3:8\"
" ;;
    stale-view*) status=2 said="not regular
proximity: view 2 shows 0:0, though update 0:1 had ended before the view began
  call 2 of process 1, records 4 and 5: view
  call 1 of process 0, records 2 and 3: update 0:1:7
" ;;
    value-nobody-wrote*) status=2 said="not regular
integrity: view 3 shows 0:1:9, which no update wrote
  call 3 of process 2, records 6 and 7: view 0:1:9
  call 1 of process 0, records 2 and 3: update 0:1:7
proximity: view 2 shows 0:0, though update 0:1 had ended before the view began
  call 2 of process 1, records 4 and 5: view
  call 1 of process 0, records 2 and 3: update 0:1:7
" ;;
    view-beside-update*) status=0 said="atomic: in this order each view shows the latest updates before it
  call 2 of process 1, records 3 and 4: view
  call 1 of process 0, records 2 and 5: update 0:1:3
" ;;
    view-from-the-future*) status=2 said="not regular
proximity: view 1 shows 0:1, though that update began after the view had ended
  call 1 of process 1, records 2 and 3: view 0:1:7
  call 2 of process 0, records 4 and 5: update 0:1:7
" ;;
    views-disagree*) status=1 said="regular, and not atomic
read: view 3 shows more of component 0 than view 4, and less of component 1
  view 3 shows 0:1 and 1:0; view 4 shows 0:0 and 1:1
  call 3 of process 2, records 4 and 6: view 0:1:1
  call 4 of process 3, records 5 and 7: view 1:1:1
  call 1 of process 0, records 2 and 8: update 0:1:1
  call 2 of process 1, records 3 and 9: update 1:1:1
" ;;
    *) status=none said= ;;
  esac
  expect "the explanation of $name" "$status" "$said" ./second explain "$history"
done
# A view of 17 entries, of which one has a value that nobody wrote.
{
  echo event,process,op,data
  for number in $(seq 0 16); do
    printf 'begin,%s,update,%s:1:7\nend,%s,update,\n' "$number" "$number" "$number"
  done
  entries=0:1:8$(seq -f ' %.0f:1:7' -s '' 16)
  printf 'begin,20,view,\nend,20,view,%s\n' "$entries"
} >wide.csv
said_of_wide() {
  printf '%s\n' "not regular" "integrity: view 18 shows 0:1:8, which no update wrote" "  call 18 of process 20, records 36 and 37: view $1" \
    "  call 1 of process 0, records 2 and 3: update 0:1:7"
}
expect "the entries of the fault" 2 "$(said_of_wide "0:1:8 and 16 more entries")
" ./second explain wide.csv
expect "all entries" 2 "$(said_of_wide "$entries")
" ./second explain --all wide.csv
expect "all entries, and a picture below" 0 "" sh -c './second explain --all wide.csv >all
./second explain --all --draw wide.csv >drawn
head -c "$(wc -c <all)" drawn | cmp - all && grep -q "^calls drawn 2, left out 16$" drawn'
rm -f wide.csv all drawn
expect "all entries of an example, which has few" 1 "$(./second explain old.csv)
" ./second explain --all old.csv

refused_empty="refused record 1: header
the first record is event,process,op,data, or at,event,process,op,data where records have stamps
  no record of the text has that number
"
expect "a picture of standard input" 3 "$refused_empty" ./second draw
expect "a refused text, and draw --text" 3 "$refused_empty" ./second draw --text
expect "a refused text, and explain --draw" 3 "$refused_empty" ./second explain --draw
expect "a refused text, and explain --all" 3 "$refused_empty" ./second explain --all
expect "a refused text, and draw --dark" 3 "$refused_empty" ./second draw --dark
expect "a refused text, and shrink --draw" 3 "refused record 1: header
" ./second shrink --draw
expect "a refused text, and shrink --map" 3 "refused record 1: header
" ./second shrink --map
expect "a refused text, and explain --faults" 3 "$refused_empty" ./second explain --faults 3
expect "a witness drawn and mapped" 5 "" ./second shrink --draw --map old.csv
expect_said "the reason" "error: the argument '--draw' cannot be used with '--map'"
# Version 9 ends before version 4, and version 12 has no end, but a view shows it.
cat >store.csv <<END
at,event,process,op,data
1,begin,0,update,0:4:7
2,begin,1,update,0:9:8
3,end,1,update,
4,end,0,update,
5,begin,1,update,0:12:5
6,begin,2,view,
7,end,2,view,0:12:5
END
expect "a store whose versions are cut" 0 "events 7 calls 4 pending 1 views 1
regular yes
monotone yes
atomic yes
order 4
1 p0 update 0:1:7
2 p1 update 0:2:8
3 p1 update 0:3:5
4 p2 view 0:3:5
" ./second check --cut store.csv
expect "the verdicts of a store alone" 0 "regular yes
monotone yes
atomic yes
" ./second check -q --cut store.csv
expect "a store explained" 0 "atomic: in this order each view shows the latest updates before it
  call 1 of process 0, records 2 and 5: update 0:1:7
  call 2 of process 1, records 3 and 4: update 0:2:8
  call 3 of process 1, record 6, pending: update 0:3:5
  call 4 of process 2, records 7 and 8: view 0:3:5
" ./second explain --cut store.csv
expect "a store that is not cut" 3 "refused record 2: number
" ./second check --writers many store.csv
printf '8,begin,0,update,0:2:6\n9,end,0,update,\n' >>store.csv
for command in check "check --quiet" explain "explain --draw"; do
  expect "versions that contradict time, and $command" 2 "contradiction ended record 4 begun record 9
" ./second $command --cut store.csv
done
expect "a text without stamps, and check --cut" 3 "refused record 1: header
" ./second check --cut old.csv
expect "two stores" 5 "" ./second check --cut store.csv old.csv
expect_said "the reason" "error: --cut takes one history"
expect "a store of one writer" 5 "" ./second explain --cut --writers one store.csv
expect_said "the reason" "error: the argument '--cut' cannot be used with '--writers one'"
rm -f store.csv
expect "a picture of several faults" 5 "" ./second explain --draw --faults 2 old.csv
expect_said "the reason" "error: the argument '--draw' cannot be used with '--faults <N>'"
expect "no fault" 5 "" ./second explain --faults 0 old.csv
expect "the first fault of each kind" 0 "" sh -c './second explain old.csv >one
./second explain --faults 1 old.csv | cmp - one'
rm -f one
for log in '{:type :invoke, :f :read}' '[{:type :invoke, :f :read}]'; do
  printf '%s\n' "$log" >log.edn
  expect "a log of Jepsen" 3 "refused record 1: header
a text that begins with { or [ may be a log of Jepsen: snapjudge-from-jepsen makes histories of it (docs/JEPSEN.md)
the first record is event,process,op,data, or at,event,process,op,data where records have stamps
  record 1 has the fields \"${log%%,*}\" \"${log#*,}\"
" ./second explain log.edn
done
expect "a picture in two forms" 5 "" ./second draw --svg --text old.csv
expect_said "the reason" "error: the argument '--svg' cannot be used with '--text'"
expect "a picture in two schemes" 5 "" ./second draw --light --dark old.csv
expect_said "the reason" "error: the argument '--light' cannot be used with '--dark'"
for scheme in light dark; do
  expect "characters in a scheme" 5 "" ./second draw --text --$scheme old.csv
  expect_said "the reason" "error: the argument '--$scheme' cannot be used with '--text'"
done
expect "a picture from a call that there is not" 5 "" ./second draw --from 1000 old.csv
expect_said "the reason" "error: invalid value '1000' for '--from <CALL>': the history has no call 1000

For more information, try '--help'."
expect "a picture around a call that there is not" 5 "" ./second draw --svg --around 1000 old.csv
expect_said "the reason" "error: invalid value '1000' for '--around <CALL>': the history has no call 1000

For more information, try '--help'."
expect "a picture from a call and around one" 5 "" ./second draw --from 1 --around 1 old.csv
expect_said "the reason" "error: the argument '--from <CALL>' cannot be used with '--around <CALL>'"
expect "more calls than lines have room for" 5 "" ./second draw --text --calls 13 old.csv
expect_said "the reason" "error: invalid value '13' for '--calls <N>': 13 is not in 1..=12

For more information, try '--help'."
expect "a refused text, and draw --from" 3 "$refused_empty" ./second draw --from 3
expect "a picture from the second call on" 0 "" sh -c './second draw --svg --from 2 old.csv | grep -qF "data-id=\"call-2\""'
expect "a dark picture" 0 "" sh -c './second draw --svg --dark old.csv | grep -qF "<pattern id=\"snapjudge-dark\""'
expect "a picture is light, if nothing else is asked for" 0 "" sh -c './second draw --svg old.csv >light
./second draw --svg --light old.csv | cmp - light'
rm -f light
for scheme in light dark; do
  expect "a page in a scheme" 0 "" sh -c './second draw --$1 old.csv | grep -q "^:root { color-scheme: $1; "' sh $scheme
done
expect "a witness with all entries" 5 "" ./second shrink --all old.csv
cp err help
expect "the reason" 0 "" grep -qF "unexpected argument '--all'" help
expect "a picture of a file that is not there" 4 "" ./second draw --svg none.csv
expect "a picture of two files" 5 "" ./second draw old.csv "a b.csv"
cp err help
expect "the reason" 0 "" grep -qF "unexpected argument 'a b.csv'" help
expect "an explanation of two files" 5 "" ./second explain old.csv "a b.csv"
cp err help
expect "the reason" 0 "" grep -qF "unexpected argument 'a b.csv'" help
expect "other colours" 5 "" ./second check --color blue old.csv
cp err help
expect "the reason" 0 "" grep -qF "[possible values: auto, always, never]" help

! has python3 "what a terminal shows" || expect "what a terminal shows" 0 "" python3 "$top/share/test-screen.py" ./second "$examples"

# Objects: those of the examples hold what their reports and explanations say.
! has python3 "the objects of the examples" || expect "the objects of the examples" 0 "" python3 "$top/share/compare-json.py" ./second "$examples"/*.csv
! has python3 "the documents of the examples" || expect "the documents of the examples" 0 "" python3 "$top/share/compare-junit.py" ./second "$examples"/*.csv
expect "the object of a file that is not there" 4 '{"name":"none.csv","status":4,"trouble":"no such file"}
' ./second check --format json none.csv
expect_said "its name and the reason" "snapjudge: none.csv: no such file"
expect "the object of standard input" 3 '{"name":"-","status":3,"refused":{"record":1,"fault":"header"}}
' sh -c 'echo x | ./second check --format json'
expect "an object, and a full disk" 4 "" sh -c "./second check --format json old.csv >/dev/full"
expect "an object of the verdicts alone" 5 "" ./second check --format json --quiet old.csv
expect_said "the reason" "error: the argument '--quiet' cannot be used with '--format json'"
expect "another format" 5 "" ./second check --format xml old.csv
cp err help
expect "the reason" 0 "" grep -qF "[possible values: plain, json, junit]" help
expect "the document of standard input" 3 '<?xml version="1.0" encoding="UTF-8"?>
<testsuite name="snapjudge" tests="1" failures="0" errors="1">
<testcase classname="snapjudge" time="0" name="-">
<error message="refused record 1: header">refused record 1: header
the first record is event,process,op,data, or at,event,process,op,data where records have stamps
  record 1 has the fields &quot;x&quot;
</error>
</testcase>
</testsuite>
' sh -c 'echo x | ./second check --format junit'
expect "a document, and a full disk" 4 "" sh -c "./second check --format junit old.csv >/dev/full"
expect "a document of the verdicts alone" 5 "" ./second check --format junit --quiet old.csv
expect_said "the reason" "error: the argument '--quiet' cannot be used with '--format junit'"
expect "a document of what has been shown" 5 "" ./second stats --format junit old.csv
cp err help
expect "the reason" 0 "" grep -qF "[possible values: plain, json]" help
if has jq "objects by jq"; then
  cp old.csv "$broken"
  expect "jq reads each object" 0 "$broken 1 3
a b.csv 2 4
" sh -c './second check --format json "$@" | jq -r '"'"'"\(.name) \(.status) \((.proximity // .read).view.begin)"'"'" sh "$broken" "a b.csv"
  rm "$broken"
fi
