#!/bin/sh
# Tries ./try: over a stand-in for `rt` that writes how it was called, and once over the toolchain's own. The last line is
# 'N passed, M failed'.
unset CDPATH
set -u
top=$(cd "$(dirname "$0")/.." && pwd)
part=try
. "$top/share/lib.sh"
says="snapjudge: this compiles the program, a minute or two, and proves nothing; ./snapjudge proves it first"

# tries NAME STATUS OUTPUT SAID COMMAND ..: compares status, output and standard error of a command
tries() {
  about=$1 wanted=$2 output=$3 said=$4
  shift 4
  expect "$about" "$wanted" "$output" "$@"
  expect_said "what is said of $about" "$said"
}

# The stand-in writes its words and its input, and ends as the file `answer` says.
mkdir -p "$room/bin" "$room/a place/sub" "$room/a place/check" "$room/a place/3"
cat >"$room/bin/rt" <<'SH'
#!/bin/sh
[ ! -e "$ANSWER.wait" ] || { echo $$ >"$ANSWER.pid"; exec sleep 300; }
printf '<%s>' "$@"
cat
echo "snapjudge: a word" >&2
cat "$ANSWER" >&2
grep -q '^run=ended' "$ANSWER" || exit 4
exit 2
SH
chmod +x "$room/bin/rt"
export ANSWER="$room/answer"
ended='interpreter: no-answer: the run did not finish within 1 step: the program may loop forever
checked: ended status=2
races: not looked for, since a kit has no ThreadSanitizer
run=ended status=2 runners=1 races=unchecked proved=no'
echo "$ended" >"$ANSWER"
before=$PATH
export PATH="$room/bin:$PATH"
cd "$room/a place" || exit 1
touch "x y.csv" "sub/-z.csv" "a=b.csv" stdout ../up.csv

tries "a name with a blank, from another folder" 2 "<try><--data><x y.csv=$PWD/x y.csv><--><check><x y.csv>" "$says
snapjudge: a word" "$top/try" check "x y.csv"
tries "several files and options" 2 "<try><--data><sub/-z.csv=$PWD/sub/-z.csv><--><check><sub/-z.csv><--pieces><3><$PWD/../up.csv><$PWD/a=b.csv><$PWD/stdout><$PWD/sub>" "$says
snapjudge: a word" "$top/try" check sub/-z.csv --pieces 3 ../up.csv a=b.csv stdout sub
tries "a whole name, a file that is not there, and one that the crate has" 2 "<try><--><check><$PWD/x y.csv><none.csv><$PWD/src/main.rt>" "$says
snapjudge: a word" "$top/try" check "$PWD/x y.csv" none.csv src/main.rt
tries "standard input" 2 "<try><--><check>a
history" "$says
snapjudge: a word" sh -c 'printf "a\nhistory" | "$1" check' sh "$top/try"
tries "standard input, slowly, beside a file" 2 "<try><--data><x y.csv=$PWD/x y.csv><--><check><-><x y.csv>late" "$says
snapjudge: a word" sh -c '{ sleep 3; printf late; } | "$1" check - "x y.csv"' sh "$top/try"
mkfifo pipe
tries "input that nobody ends, beside a file" 2 "<try><--data><x y.csv=$PWD/x y.csv><--><check><x y.csv>" "$says
snapjudge: a word" timeout 60 sh -c '"$1" check "x y.csv" <>pipe' sh "$top/try"
tries "no word" 2 "<try><-->" "$says
snapjudge: a word" "$top/try"
ln -s "$top/try" link
tries "a link" 2 "<try><--><--version>" "$says
snapjudge: a word" ./link --version

tries "the name of the program in help" 2 "<try><--><check><--help><
Usage: snapjudge [FILE]>" "$says
snapjudge: a word" "$top/try" check --help "
Usage: program [FILE]"
tries "the same words without help" 2 "<try><--><check><
Usage: program [FILE]>" "$says
snapjudge: a word" "$top/try" check "
Usage: program [FILE]"

fault='checked: fault: index out of bounds at src/main.rt:3:4
run=fault proved=no'
echo "$fault" >"$ANSWER"
tries "a run that does not end" 70 "<try><--><--version>" "$says
snapjudge: a word
$fault
snapjudge: the try failed: the program did not end by itself, as is said above" "$top/try" --version
touch "$ANSWER.wait"
"$top/try" check "x y.csv" >"$room/out" 2>"$room/err.tried" &
started=$!
for turn in $(seq 600); do
  [ ! -s "$ANSWER.pid" ] || break
  sleep 0.1
done
kill "$started"
wait "$started"
found=$?
for turn in $(seq 100); do
  kill -0 "$(cat "$ANSWER.pid")" 2>/dev/null || break
  sleep 0.1
done
tries "a try that is ended ends all" 0 "70, and $says
snapjudge: the try failed: it was interrupted
" "kill: gone" sh -c 'echo "$1, and $(cat "$2")"; kill -0 "$(cat "$3")" 2>/dev/null || echo "kill: gone" >&2' sh "$found" "$room/err.tried" "$ANSWER.pid"

# What the newcomer types, by the toolchain's own rt, in a copy without anything that is built.
export PATH="$before"
mkdir "$room/clone"
(cd "$top" && tar cf - --exclude out --exclude .git crates crates.txt HANDLES try share examples) | tar xf - -C "$room/clone"
cd "$room/clone" || exit 1
report=$(cat examples/new-old-inversion.report)
tries "the first try" 1 "$report
" "$says" ./try check examples/new-old-inversion.csv
end_tests
