# Names from a list and from below a folder, and files of other kinds. share/test.sh reads this file: it works in the room there,
# with its functions and its files.

# Judges with these words, and compares status and the names of the histories, in their order.
asked() {
  about=$1 status=$2 wanted=$3
  shift 3
  expect "$about" "$status" "$wanted" sh -c '"$@" >answer; code=$?; sed -n "s/: atomic .*//p" answer; exit $code' sh ./second check --quiet "$@"
}

# Whether this user can be refused a file.
can_be_refused() {
  [ "$(id -u)" = 0 ] || return 0
  skip "$1" "since root reads each file and folder"
  return 1
}

# Whether a folder has a link for each folder in it; else a note under a name that is not UTF-8 may be a folder.
counts_links() {
  mkdir -p links/inner
  [ -z "$(find links -prune -links 3)" ] || return 0
  skip "$1" "the file system counts no folders"
  return 1
}

# The sums of snapjudge.cluster, if there is Python and the library.
by_cluster() {
  has python3 "$1" || return
  if [ ! -e "$top/ffi/build/libsnapjudge.so" ]; then
    skip "$1" "ffi/build/libsnapjudge.so is not here"
    return 1
  fi
  about=$1 status=$2 wanted=$3
  shift 3
  expect "$about" "$status" "$wanted" env PYTHONPATH="$top/ffi/python" python3 -B -m snapjudge.cluster --workers 1 "$@"
}

two='old.csv
a b.csv
'
printf 'old.csv\na b.csv\n' >list
asked "a list" 2 "$two" --files-from list
asked "a list that is given with an equals sign" 2 "$two" --files-from=list
printf 'old.csv\na b.csv' >list
asked "a list whose last line has no end" 2 "$two" --files-from list
expect "a list on standard input" 2 "$named_inversion$named_stale" sh -c './second check --files-from - <list'
printf 'old.csv' >list
expect "a list of one name" 1 "$named_inversion" ./second check --files-from list
asked "words before a list" 2 "a b.csv
old.csv
" --files-from list "a b.csv"
asked "a name twice" 1 "old.csv
old.csv
" --files-from list old.csv
printf -- '-x.csv\nold.csv' >list
asked "a name with a leading hyphen" 2 "-x.csv
old.csv
" --files-from list
printf 'old.csv\nnone.csv\na b.csv' >list
asked "a name of no file in a list" 4 "$two" --files-from list
expect_said "the name and the reason" "snapjudge: none.csv: no such file"
printf 'old.csv\r\n' >list
asked "a list with carriage returns" 4 "" --files-from list
expect_said "the name and the reason" 'snapjudge: old.csv\r: no such file'
bare=$(printf '\377.csv')
bare_shown='\xff.csv'
cp old.csv "$bare"
printf 'old.csv\n%s\n' "$bare" >list
asked "a name in a list that is not UTF-8" 4 "old.csv
" --files-from list
expect_said "the name and the reason" "snapjudge: $bare_shown: is not UTF-8"
asked "a name among the words that is not UTF-8" 4 "a b.csv
" "$bare" "a b.csv"
expect_said "the name and the reason" "snapjudge: $bare_shown: is not UTF-8"
expect "sums with a name that is not UTF-8" 4 "files 2
atomic 0
only-regular 1 first old.csv
not-regular 0
refused 0
failed 1 first $bare_shown
" ./second check --summary "$bare" old.csv
expect "an object of a name that is not UTF-8" 4 "$(printf '{"name":"\357\277\275.csv","status":4,"trouble":"is not UTF-8"}')
" ./second check --format json "$bare"
asked "a list whose name is not UTF-8" 4 "" --files-from "$bare"
expect_said "the name and the reason" "snapjudge: $bare_shown: is not UTF-8"
asked "a folder whose name is not UTF-8" 4 "old.csv
" -r "$bare" old.csv
expect_said "the name and the reason" "snapjudge: $bare_shown: is not UTF-8"
rm "$bare"

broken=$(printf 'a\nb\\c.csv')
cp old.csv "$broken"
printf 'a b.csv\0%s\0' "$broken" >list
for null in -0 --null; do
  expect "a list with $null" 2 "$named_stale$(report_of new-old-inversion 'a\\nb\\\\c.csv: ' | sed '$d')
" ./second check $null --files-from list
done
printf 'a b.csv\0old.csv' >list
asked "a list whose last name has no zero byte" 2 "a b.csv
old.csv
" --files-from list -0
rm "$broken"
# escapes that would clear a terminal, a delete and a tab, and a letter that is two bytes
loud=$(printf 'a\033[2J\177\t\303\251.csv')
cp old.csv "$loud"
expect "a name with control bytes" 4 "$(report_of new-old-inversion 'a\\x1b[2J\\x7f\\x09é.csv: ' | sed '$d')
" ./second check "$loud" "$loud.none"
expect_said "the name and the reason" 'snapjudge: a\x1b[2J\x7f\x09é.csv.none: no such file'
rm "$loud"
printf 'old.csv\0' >list
asked "a list of zero bytes without the option" 4 "" --files-from list

printf 'old.csv\n\na b.csv\n' >list
asked "an empty line in a list" 4 "" --files-from list old.csv
expect_said "the list and the reason" "snapjudge: list: name 2 is empty"
echo >list
asked "a list of one empty line" 4 "" --files-from list
expect_said "the list and the reason" "snapjudge: list: name 1 is empty"
printf '\0' >list
asked "a list of one zero byte" 4 "" --files-from list -0
expect_said "the list and the reason" "snapjudge: list: name 1 is empty"
: >list
asked "an empty list" 4 "" --files-from list
expect_said "the reason" "snapjudge: there are no recordings"
asked "an empty list after a word" 1 "old.csv
" --files-from list old.csv
asked "no such list" 4 "" --files-from none old.csv
expect_said "the list and the reason" "snapjudge: none: no such file"
asked "a folder as a list" 4 "" --files-from many old.csv
expect_said "the list and the reason" "snapjudge: many: is a directory; check -r judges the files below it"
asked "a list without an end" 4 "" --files-from /dev/zero old.csv
expect_said "the list and the reason" "snapjudge: /dev/zero: is longer than 268435456 bytes"
expect "a list from no input" 4 "" sh -c './second check --files-from - old.csv <&-'
expect_said "the reason" "snapjudge: -: read failed"

asked "names with zero bytes, and no list" 5 "" -0 old.csv
expect_said "the reason" "error: the argument '--null' needs '--files-from <LIST>'"
asked "two lists" 5 "" --files-from list --files-from list
asked "a list without a name" 5 "" --files-from
asked "standard input as a list and as a file" 5 "" --files-from - -
expect_said "the reason" "error: - is standard input, and can be named once"
expect "a list on standard input that names it" 4 "" sh -c 'echo - | ./second check --files-from -'
expect_said "the reason" "snapjudge: -: - is standard input, and can be named once"
echo - >list
expect "a list that names standard input" 2 "$(report_of stale-view '-: ' | sed '$d')
" sh -c './second check --files-from list <"a b.csv"'
asked "a list that names standard input, as a word does" 4 "" --files-from list -
expect_said "the reason" "snapjudge: list: - is standard input, and can be named once"
expect "a list for another command" 5 "" ./second shrink --files-from list
expect "a list of recordings to follow" 5 "" ./second check --follow --files-from list
expect_said "the reason" "error: the argument '--follow' cannot be used with '--files-from <LIST>'"
expect "a folder of recordings to follow" 5 "" ./second check -r . --follow
expect_said "the reason" "error: the argument '--follow' cannot be used with '--recursive <FOLDER>'
  tip: '--follow FOLDER' follows all recordings below a folder"
expect "two recordings to follow" 5 "" ./second check old.csv --follow -
expect_said "the reason" "error: --follow takes one recording"

mkdir -p runs/a runs/deep/er/still runs/d.csv runs/empty "runs/with blank"
for name in runs/b.csv runs/a.csv runs/a-b.csv runs/a/b.csv runs/.csv runs/.hidden.csv runs/d.csv/in.csv runs/deep/er/still/z.csv; do
  cp old.csv $name
done
cp "a b.csv" "runs/with blank/a b.csv"
cp old.csv runs/x.CSV
cp old.csv runs/x.csv.txt
cp old.csv runs/csv
ln -s ../many runs/linked
ln -s ../many runs/linked.csv
ln -s . runs/itself
ln -s ../old.csv runs/file.csv
below='runs/.csv
runs/.hidden.csv
runs/a-b.csv
runs/a.csv
runs/a/b.csv
runs/b.csv
runs/d.csv/in.csv
runs/deep/er/still/z.csv
runs/file.csv
runs/with blank/a b.csv
'
for word in -r --recursive; do
  asked "a folder, by $word" 2 "$below" $word runs
done
asked "a folder with a slash after it" 2 "$below" -r runs/
expect "the folder that one is in" 2 "$(printf '%s' "$below" | sed 's/^runs/./')
" sh -c 'cd runs && ../second check --quiet -r . >../answer; code=$?; sed -n "s/: atomic .*//p" ../answer; exit $code'
asked "a link to a folder that is named" 2 "$(for number in 1 2 3 4 5 6 7 8 9; do echo runs/linked/$number.csv; done)
" -r runs/linked
printf 'old.csv' >list
asked "a word, a list and a folder, in this order" 2 "many/9.csv
old.csv
$below" -r runs --files-from list many/9.csv
asked "a folder of one recording" 1 "runs/a/b.csv
" -r runs/a
expect "objects of a folder" 1 '"runs/a/b.csv"
' sh -c './second check --format json -r runs/a >answer; code=$?; grep -o "\"runs[^\"]*\"" answer; exit $code'
asked "a file in the place of a folder" 1 "old.csv
" -r old.csv
asked "an empty folder" 4 "" -r runs/empty
expect_said "the reason" "snapjudge: there are no recordings"
asked "an empty folder after a word" 1 "old.csv
" -r runs/empty old.csv
asked "no such folder" 4 "old.csv
" -r none old.csv
expect_said "the folder and the reason" "snapjudge: none: no such file"
asked "a folder without a name" 4 "" -r ""
expect_said "the reason" "snapjudge: : no such file"
asked "two folders" 5 "" -r runs -r many
ln -s nowhere runs/a/gone.csv
asked "a link to nothing" 4 "runs/a/b.csv
" -r runs/a
expect_said "the name and the reason" "snapjudge: runs/a/gone.csv: no such file"
rm runs/a/gone.csv
mkdir pipes
cp old.csv pipes/old.csv
mkfifo pipes/pipe.csv
ln -s pipe.csv pipes/linked.csv
ln -s /dev/zero pipes/zero.csv
expect "pipes and devices below a folder are left out" 1 "pipes/old.csv: regular yes
pipes/old.csv: monotone no
pipes/old.csv: atomic no
" timeout 60 ./second check --quiet -r pipes
rm -r pipes
# under a name that is not UTF-8 a note can't be lost, and a recording or a folder can
bare=$(printf 'runs/a/\377')
for note in "$bare" "$bare.txt" "${bare}csv"; do
  cp old.csv "$note"
done
ln -s ../b.csv "$bare.link"
ln -s .. "$bare.above"
mkfifo "$bare.pipe"
if counts_links "notes whose names are not UTF-8"; then
  asked "notes whose names are not UTF-8" 1 "runs/a/b.csv
" -r runs/a
  expect_said "nothing" ""
  summed='files 1
atomic 0
only-regular 1 first runs/a/b.csv
not-regular 0
refused 0
failed 0
'
  expect "sums of a folder with such notes" 1 "$summed" ./second check --summary -r runs/a
  by_cluster "sums by snapjudge.cluster of a folder with such notes" 1 "$summed" runs/a && expect_said "nothing" ""
  expect "a folder with such notes, followed" 1 "window 1 events 6 only-regular
" sh -c './second check --follow --idle 1 runs/a >answer; code=$?; sed -n "1s/ from.*//p" answer; exit $code'
fi
rm "$bare"*
cp old.csv "$bare.csv"
mkdir "$bare.d" "$bare.d.csv"
cp old.csv "$bare.d/in.csv"
asked "names in a folder that are not UTF-8" 4 "runs/a/b.csv
" -r runs/a
told='snapjudge: runs/a/\xff.csv: is not UTF-8
snapjudge: runs/a/\xff.d: is not UTF-8
snapjudge: runs/a/\xff.d.csv: is not UTF-8'
expect_said "the names and the reason" "$told"
summed='files 4
atomic 0
only-regular 1 first runs/a/b.csv
not-regular 0
refused 0
failed 3 first runs/a/\xff.csv
'
expect "sums of a folder with names that are not UTF-8" 4 "$summed" ./second check --summary -r runs/a
expect_said "the names and the reason" "$told"
by_cluster "sums by snapjudge.cluster of a folder with names that are not UTF-8" 4 "$summed" runs/a &&
  expect_said "the names and the reason" "$told"
rm -r "$bare"*
if has python3 "names as snapjudge.cluster takes them"; then
  expect "the names below a folder, as snapjudge.cluster takes them" 0 "$below" env PYTHONPATH="$top/ffi/python" python3 -c '
import sys
from snapjudge.cluster import names_below
sys.stdout.buffer.write(b"".join(name + b"\n" for name in names_below(b"runs")))'
fi
if can_be_refused "a folder that can't be read"; then
  chmod 0 runs/deep/er
  asked "a folder that can't be read" 4 "$(printf '%s' "$below" | grep -v still)
" -r runs
  expect_said "the folder and the reason" "snapjudge: runs/deep/er: permission denied"
  chmod 755 runs/deep/er
fi
if can_be_refused "a file that can't be read"; then
  cp old.csv locked.csv
  chmod 0 locked.csv
  expect "a file that can't be read" 4 "$named_inversion" ./second check locked.csv old.csv
  expect_said "the file and the reason" "snapjudge: locked.csv: permission denied"
  rm -f locked.csv
fi

# why a file can't be opened
ln -s loop.csv loop.csv
asked "a link to itself" 4 "old.csv
" loop.csv old.csv
expect_said "the file and the reason" "snapjudge: loop.csv: too many links"
rm loop.csv
long=$(printf '%0300d' 0)
asked "a long name" 4 "old.csv
" $long old.csv
expect_said "the file and the reason" "snapjudge: $long: the name is too long"
if has python3 "a socket"; then
  python3 -c 'import socket; socket.socket(socket.AF_UNIX).bind("socket.csv")'
  asked "a socket" 4 "old.csv
" socket.csv old.csv
  expect_said "the file and the reason" "snapjudge: socket.csv: is a socket, or its device is missing"
  rm socket.csv
fi
# a process whose limit falls to the files that it has open, once it has read a name of its list
if has python3 "a process that may open no more files"; then
  expect "a process that may open no more files" 4 "snapjudge: old.csv: too many open files
" python3 -B -c '
import fcntl, resource, struct, subprocess, sys, termios, time
pipe = subprocess.PIPE
ran = subprocess.Popen([sys.argv[1], "check", "--files-from", "-"], stdin=pipe, stdout=pipe, stderr=pipe)
ran.stdin.write(b"old.csv")
ran.stdin.flush()
while struct.unpack("i", fcntl.ioctl(ran.stdin, termios.FIONREAD, bytes(4)))[0]:
    time.sleep(0.01)
resource.prlimit(ran.pid, resource.RLIMIT_NOFILE, (3, 3))
out, said = ran.communicate()
sys.stdout.buffer.write(out + said)
sys.exit(ran.returncode)' "$top/built/snapjudge"
fi

# many files, and a text that grows while it is read
mkdir lots
text=$(cat old.csv)
for number in $(seq 10000); do
  printf '%s\n' "$text" >lots/$number.csv
done
expect "10,000 files in a folder" 1 "30000
" timeout 120 sh -c './second check --quiet -r lots >answer; code=$?; wc -l <answer; exit $code'
expect "10,000 names in a list" 1 "30000
" timeout 120 sh -c 'ls lots | sed s,^,lots/, >list; ./second check --quiet --files-from list >answer; code=$?; wc -l <answer; exit $code'
rm -r lots
cp old.csv growing.csv
(
  number=0
  while [ ! -e grown ]; do
    for turn in 1 2 3 4 5 6 7 8 9 10; do
      number=$((number + 1))
      printf 'begin,9,update,9:%d:1\nend,9,update,\n' $number
    done
    sleep 0.01
  done >>growing.csv
) &
grower=$!
expect "a text that grows while it is read" 1 "regular yes
monotone no
atomic no
" timeout 60 ./second check --quiet growing.csv
touch grown
wait $grower
