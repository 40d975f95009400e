# Files and words of the command line. share/test.sh reads this file: it works in the room there, with its functions and its files.

expect "a file" 2 "$stale" "$top/snapjudge" check "$examples/stale-view.csv"
expect "a file through two symbolic links" 1 "$inversion" ./second check "$examples/new-old-inversion.csv"
expect "a file between options" 1 "$inversion" ./second check --pieces 3 "$examples/new-old-inversion.csv" --workers=4
expect "a file after two hyphens" 1 "$inversion" ./second check -- "$examples/new-old-inversion.csv"
cp "$examples/new-old-inversion.csv" old.csv
cp "$examples/stale-view.csv" "a b.csv"
expect "two files, the greatest status" 2 "$named_inversion$named_stale" ./second check old.csv "a b.csv"
mkdir many
wanted=
names=
for number in 1 2 3 4 5 6 7 8 9; do
  case $number in
    [27]) example=stale-view ;;
    *) example=new-old-inversion ;;
  esac
  cp "$examples/$example.csv" "many/$number.csv"
  names="$names many/$number.csv"
  front=$(report_of $example "many\/$number.csv: ")
  wanted=$wanted${front%.}
done
for workers in 1 2 3 4 8; do
  expect "nine files and $workers workers, in the order of their names" 2 "$wanted" ./second check --workers $workers $names
done
./second record --rounds 500 >long.csv 2>/dev/null
expect "a long file before short ones" 0 "long.csv
many/1.csv
many/3.csv
" sh -c './second check --workers 4 long.csv many/1.csv many/3.csv | sed "s/: .*//" | uniq'
wanted=
for number in $(seq 150); do
  wanted=$wanted${front%.}
done
for workers in 1 2 8; do
  expect "150 names and $workers workers, in rounds" 1 "$wanted" ./second check --workers $workers $(yes many/9.csv | head -n 150)
done
expect "reasons in the order of the names" 4 "$named_inversion" ./second check --workers 4 no.csv none.csv old.csv "$room" nil.csv
expect_said "each name and its reason" "snapjudge: no.csv: no such file
snapjudge: none.csv: no such file
snapjudge: $room: is a directory; check -r judges the files below it
snapjudge: nil.csv: no such file"
expect "a file that is not there" 4 "" ./second check none.csv
expect_said "its name and the reason" "snapjudge: none.csv: no such file"
expect "a folder" 4 "" ./second check "$room"
expect_said "its name and the reason" "snapjudge: $room: is a directory; check -r judges the files below it"
expect "a file among others that is not there" 4 "$named_inversion" ./second check none.csv old.csv
! command -v bash >/dev/null ||
  expect "two files, by another shell" 2 "$named_inversion$named_stale" bash "$top/snapjudge" check old.csv "a b.csv"
expect "a file without a name" 4 "" ./second check ""
expect "a file whose name begins with a hyphen" 2 "$stale" sh -c 'cp "a b.csv" ./-x.csv; ./second check -- -x.csv'
broken=$(printf 'a\nb\\c.csv')
cp old.csv "$broken"
expect "a file whose name has a line end" 2 "$(report_of new-old-inversion 'a\\nb\\\\c.csv: ' | sed '$d')
$named_stale" ./second check "$broken" "a b.csv"
rm "$broken"
expect "standard input among files" 2 "$(report_of stale-view '-: ' | sed '$d')
$named_inversion" sh -c './second check - old.csv <"a b.csv"'
for command in check stats; do
  expect "standard input twice for $command" 5 "" ./second $command - old.csv -
  expect_said "the reason" "error: - is standard input, and can be named once"
done

# What files have shown, together as alone. A name stands before each line, and in each object.
cp "$examples/skipped-number.csv" refused.csv
shown=$(./second stats old.csv | sed 's/^/old.csv: /')
stale_shown=$(./second stats "a b.csv" | sed 's/^/a b.csv: /')
object=$(./second stats --format json old.csv)
stale_object=$(./second stats --format json "a b.csv")
expect "what two files have shown" 0 "$shown
$stale_shown
" ./second stats old.csv "a b.csv"
expect "what one file has shown, named twice" 0 "$shown
$shown
" ./second stats old.csv old.csv
expect "objects of what two files have shown" 0 "$stale_object
$object
" ./second stats --format json "a b.csv" old.csv
expect "what a file has shown, beside one that is refused" 3 "refused.csv: refused record 4: number
$shown
" ./second stats refused.csv old.csv
expect "what a file has shown, beside one that is not there" 4 "$shown
refused.csv: refused record 4: number
" ./second stats none.csv old.csv refused.csv
expect_said "its name and the reason" "snapjudge: none.csv: no such file"
expect "an object of a file that is not there" 4 "{\"name\":\"none.csv\",\"status\":4,\"trouble\":\"no such file\"}
$object
" ./second stats --format json none.csv old.csv
expect_said "its name and the reason" "snapjudge: none.csv: no such file"
expect "what standard input has shown among files" 0 "$(printf '%s\n' "$stale_shown" | sed 's/^a b.csv/-/')
$shown
" sh -c './second stats - old.csv <"a b.csv"'
rm refused.csv
mkfifo pipe
expect "a pipe among files" 2 "$(report_of stale-view 'pipe: ' | sed '$d')
$named_inversion" sh -c 'cat "a b.csv" >pipe & ./second check pipe old.csv'
expect "a pipe whose writer comes late" 2 "$(report_of stale-view 'pipe: ' | sed '$d')
$named_inversion" timeout 60 sh -c '{ sleep 0.5; cat "a b.csv" >pipe; } & ./second check pipe old.csv'
rm pipe
! command -v bash >/dev/null ||
  expect "a text that a command writes" 1 "$inversion" bash -c './second check <(cat old.csv)'
expect "a file without an end" 3 "/dev/zero: refused record 0: toolong
$named_inversion" ./second check /dev/zero old.csv
expect "a folder among files" 4 "$named_inversion" ./second check "$room" old.csv
expect_said "its name and the reason" "snapjudge: $room: is a directory; check -r judges the files below it"
expect "a file below a file" 4 "" ./second check old.csv/none.csv
expect_said "its name and the reason" "snapjudge: old.csv/none.csv: no such file"
for command in check shrink explain draw stats; do
  expect "$command of a name that is not UTF-8" 4 "" ./second $command "$(printf '\377.csv')"
  expect_said "the name and the reason" 'snapjudge: \xff.csv: is not UTF-8'
done
for words in "check --views" record ""; do
  expect "a word that is not UTF-8 where no name stands: $words" 5 "" ./second $words "$(printf '\377')"
  expect_said "the reason" "error: a word that is not UTF-8 can only name a file, a list or a folder"
done
expect "an option with a blank" 5 "" ./second check --pieces "3 --quiet" old.csv
