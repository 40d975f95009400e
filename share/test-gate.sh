#!/usr/bin/env bash
# Tries the gate itself over a tree whose parts do what a file says: each part in turn fails, dies or is not there, and each
# must make the gate red. The last line is 'N passed, M failed'.
case ${1-} in
  -h | --help)
    sed -n '2,/^[^#]/ s/^# \{0,1\}//p' "$0"
    exit 0
    ;;
esac
set -u
top=$(cd "$(dirname "${BASH_SOURCE[0]}")/.." && pwd)
room=$(mktemp -d) || exit 1
trap 'rm -rf "$room"' EXIT
passed=0
failed=0

mkdir -p "$room"/{bin,tree/{share,ffi/record,sweep,examples/systems}}
cp "$top/test" "$room/tree"
cp "$top/share/crates.py" "$room/tree/share"
echo "regular yes" >"$room/tree/examples/one.report"
touch "$room/tree/examples/one.csv"
# what has changed since a gate passed is what a file says
echo "import sys; print(open('$room/touched').read() if sys.argv[1] == 'since' else 'snap_core 0', end='')" >"$room/tree/share/touched.py"
touch "$room/touched"
echo "snap_core:" >"$room/tree/crates.txt"
mkdir -p "$room/tree/crates/snap_core/src" "$room/tree/crates/snap_core/must-fail" "$room/tree/crates/snapjudge/out"
touch "$room/tree/crates/snapjudge/out/snapjudge"

# A part that does what the file of its name says, or passes if there is none.
stub() {
  cat >"$room/tree/$2" <<STUB
#!/usr/bin/env bash
case \$(cat "$room/$1" 2>/dev/null) in
  fails) echo "java: FAILED"; echo "2 passed, 1 failed"; exit 1 ;;
  "fails without a name") echo "no name"; echo "2 passed, 1 failed"; exit 1 ;;
  dies) kill -9 \$\$ ;;
  "ends early") echo "half of it"; exit 0 ;;
  "denies its failure") echo "3 passed, 1 failed"; exit 0 ;;
  "denies its status") echo "3 passed, 0 failed"; exit 1 ;;
  works) python3 -c 'while __import__("time").process_time() < 2: pass' ;;
  waits) echo \$\$ >"$room/waiting"; sleep 300 ;;
  "has a bad edit") echo "must-fail snap_core/push.edit: BAD EDIT: its old text stands there twice"; echo "3 passed, 0 failed"; exit 0 ;;
  "names an edit of skipped") echo "must-fail push.renumbers-skipped.edit: refused"; echo "2 passed, 0 failed"; exit 0 ;;
  skips) echo "java: skipped, there is no javac"; echo "2 passed, 0 failed, 1 skipped"; exit 0 ;;
esac
$3
STUB
  chmod +x "$room/tree/$2"
}

stub gate share/test-gate.sh 'echo "3 passed, 0 failed"'
stub wrong-bodies share/test-wrong-bodies.py 'echo "3 passed, 0 failed"'
stub proofs share/wrong_bodies.py 'echo "proved: $*."; echo "3 passed, 0 failed"'
stub rt ../bin/rt 'exit 0'
stub must-catch sweep/must_catch.py 'echo "3 passed, 0 failed"'
stub build build 'exit 0'
stub examples snapjudge 'cat examples/one.report'
stub launcher share/test.sh 'echo "3 passed, 0 failed"'
stub library ffi/test.sh 'echo "3 passed, 0 failed"'
stub '$(case $1 in --text) echo pages ;; *) echo dialogues ;; esac)' share/test-pages.py 'echo "3 passed, 0 failed"'
stub try share/test-try.sh 'echo "3 passed, 0 failed"'
stub edits share/test-edits.py 'echo "3 passed, 0 failed"'
stub schedule share/test-schedule.py 'echo "3 passed, 0 failed"'
stub pictures share/test-draw.py 'echo "3 passed, 0 failed"'
stub package share/test-package.sh 'echo "3 passed, 0 failed"'
stub recorders ffi/record/test.sh 'echo "3 passed, 0 failed"'
stub systems examples/systems/test.sh 'echo "3 passed, 0 failed"'
stub scans sweep/scans.sh 'echo "3 passed, 0 failed"'
stub sweep sweep/test.sh 'echo "3 passed, 0 failed"'

# expect NAME STATUS LAST [LINE]: the gate's status and its last line, and a line that must be among the others. The gate has
# the words in `words`.
words=()
expect() {
  local name=$1 wanted=$2 last=$3 line=${4-} status
  PATH="$room/bin:$PATH" "$room/tree/test" "${words[@]}" >"$room/out" 2>&1
  status=$?
  if [ "$status" = "$wanted" ] && [[ $(tail -n 1 "$room/out") =~ ^$last$ ]] && { [ -z "$line" ] || grep -qF "$line" "$room/out"; }; then
    passed=$((passed + 1))
  else
    failed=$((failed + 1))
    echo "gate: failed: $name: status $status, wanted $wanted and the last line $last; it ends"
    tail -n 16 "$room/out"
  fi
}

# Whether the part that waits has ended. It is gone once its parent, which ended too, has been waited for by another.
has_ended() {
  for _ in {1..600}; do
    kill -0 "$(cat "$room/waiting")" 2>/dev/null || return 0
    sleep 0.1
  done
  return 1
}

parts="pages edits schedule try gate must-catch wrong-bodies proofs build examples launcher library dialogues pictures package recorders systems scans sweep"
expect "all parts pass" 0 "53 passed, 0 failed" "proved: ci."
if [ "$(awk '/^part / { inside = 1; next } /^all / { inside = 0 } inside { print $1 }' "$room/out" | tr '\n' ' ')" = "${parts/recorders systems scans sweep/systems scans sweep recorders} " ]; then
  passed=$((passed + 1))
else
  failed=$((failed + 1))
  echo "gate: FAILED: the table has another order"
  cat "$room/out"
fi
words=(--anew)
expect "all is proved anew" 0 "53 passed, 0 failed" "proved: ci --anew."
words=()
for part in $parts; do
  for way in fails dies "ends early" "denies its failure" "denies its status"; do
    case "$part $way" in
      # of these two the status alone counts, and what an example prints
      "build ends early" | "build denies its failure") continue ;;
    esac
    echo "$way" >"$room/$part"
    expect "$part $way" 1 '[0-9]+ passed, [1-9][0-9]* failed'
  done
  rm "$room/$part"
done
echo fails >"$room/build"
expect "parts that need the program are named" 1 "24 passed, 11 failed" "launcher was not reached: there is no program"
rm "$room/build"
rm "$room/tree/crates/snapjudge/out/snapjudge"
expect "the program is not proved" 1 "24 passed, 11 failed" "build was not reached: the program is not proved"
touch "$room/tree/crates/snapjudge/out/snapjudge"
# what fails early ends the gate before the proofs, which would take five minutes here
echo waits >"$room/proofs"
SECONDS=0
echo fails >"$room/pages"
expect "a page is wrong" 1 "8 passed, 13 failed" "proofs was not reached: a part that takes seconds has failed"
rm "$room/pages"
echo fails >"$room/must-catch"
expect "a part beside the proofs fails" 1 "20 passed, 13 failed" "proofs was not reached: a part beside them has failed"
rm "$room/must-catch" "$room/proofs"
if [ "$SECONDS" -lt 200 ] && has_ended; then
  passed=$((passed + 1))
else
  failed=$((failed + 1))
  echo "gate: FAILED: after $SECONDS seconds the proofs go on, or the gate has waited for them"
fi
rm -f "$room/waiting"
echo skips >"$room/recorders"
expect "what is skipped is said" 0 "52 passed, 0 failed, 1 skipped" "recorders: java: skipped, there is no javac"
echo fails >"$room/recorders"
expect "what failed is said at the end" 1 "52 passed, 1 failed" "recorders: java: FAILED"
echo "fails without a name" >"$room/recorders"
expect "the last lines stand for a name" 1 "52 passed, 1 failed" "recorders: no name"
echo "names an edit of skipped" >"$room/recorders"
expect "a name with the word is not skipped" 0 "52 passed, 0 failed"
if grep -q "^recorders: must-fail" "$room/out"; then
  failed=$((failed + 1))
  echo "gate: FAILED: a wrong body with the word skipped in its name counts as skipped"
else
  passed=$((passed + 1))
fi
# each part's own processor time is printed, even if it runs beside others
for part in launcher recorders; do
  echo works >"$room/$part"
done
expect "parts that take processor time" 0 "53 passed, 0 failed"
for part in launcher recorders; do
  if grep -Eq "^$part +3 +0 +0 +[0-9]+:[0-9]+ +0:0[1-9]$" "$room/out"; then
    passed=$((passed + 1))
  else
    failed=$((failed + 1))
    echo "gate: FAILED: the processor time of $part"
    grep "^$part " "$room/out"
  fi
  rm "$room/$part"
done
# what runs beside other parts ends with the gate
echo waits >"$room/recorders"
PATH="$room/bin:$PATH" "$room/tree/test" >"$room/out" 2>&1 &
gate=$!
for _ in {1..600}; do
  [ ! -s "$room/waiting" ] || break
  sleep 0.1
done
kill "$gate"
wait "$gate"
if [ -s "$room/waiting" ] && has_ended; then
  passed=$((passed + 1))
else
  failed=$((failed + 1))
  echo "gate: FAILED: an interrupted gate leaves a part that waits"
  tail -n 16 "$room/out"
fi
rm "$room/recorders"
echo "has a bad edit" >"$room/proofs"
expect "a wrong body that can't be applied" 1 "53 passed, 1 failed" "proofs: must-fail snap_core/push.edit: BAD EDIT"
rm "$room/proofs"
for file in share/test-edits.py share/test-schedule.py share/test-try.sh share/test-wrong-bodies.py share/wrong_bodies.py share/test-pages.py share/test-draw.py share/test.sh ffi/test.sh share/test-package.sh ffi/record/test.sh examples/systems/test.sh sweep/scans.sh sweep/test.sh sweep/must_catch.py build; do
  mv "$room/tree/$file" "$room/kept"
  expect "$file is not there" 1 '[0-9]+ passed, [1-9][0-9]* failed'
  mv "$room/kept" "$room/tree/$file"
done

# what is tried of a change
words=(--quick)
expect "nothing has changed" 0 "13 passed, 0 failed" "left out: snap_core, since nothing of snap_core has changed"
echo snap_core >"$room/touched"
expect "a crate has changed" 0 "15 passed, 0 failed" "left out: launcher, since nothing of snapjudge share has changed"
echo fails >"$room/proofs"
expect "a wrong body of a changed crate is let through" 1 "13 passed, 2 failed" "program was not reached: a crate has failed"
rm "$room/proofs"
echo fails >"$room/rt"
expect "a changed crate fails" 1 "12 passed, 3 failed" "program was not reached: a crate has failed"
rm "$room/rt"
echo fails >"$room/pages"
expect "a page is wrong" 1 "11 passed, 2 failed" "crates was not reached: a part that takes seconds has failed"
rm "$room/pages"
mv "$room/tree/crates.txt" "$room"
expect "the crates can't be read" 1 "12 passed, 1 failed" "crates was not reached: crates.txt can't be read"
mv "$room/crates.txt" "$room/tree"
rm "$room/tree/built/passed"
expect "no gate has passed" 1 "no gate has passed here yet.*"
words=(--slow)
expect "a word that the gate does not know" 5 "  --quick .*" "usage: test [--help | --anew | --quick]"
words=(--help)
expect "the help of the gate" 0 "  --quick .*" "usage: test [--help | --anew | --quick]"
mkdir "$room/few"
for tool in bash dirname mktemp touch rm; do
  ln -s "$(command -v "$tool")" "$room/few/$tool"
done
status=0
PATH="$room/few" "$room/tree/test" >"$room/out" 2>&1 || status=$?
if [ "$status" = 1 ] && grep -q "^there is no rt on the path" "$room/out"; then
  passed=$((passed + 1))
else
  failed=$((failed + 1))
  echo "gate: failed: no tools: status $status"
  cat "$room/out"
fi

# A check that fails names the goals first, and nothing that is proved.
if python3 -B - "$top/share" >"$room/out" 2>&1 <<'PY'
import sys

sys.path.insert(0, sys.argv[1])
import prove

said = "fn a::b: proved\nfn a::c: proved, may wait\nstatements std: 1\nnote: a help\nfn a::d: not proved\n./proofs/d: error: a goal\n"
told = prove.told(said)
print(told)
sys.exit(told != ["fn a::d: not proved", "./proofs/d: error: a goal", "note: a help"])
PY
then
  passed=$((passed + 1))
else
  failed=$((failed + 1))
  echo "gate: failed: what is told of a failed check"
  cat "$room/out"
fi

echo "$passed passed, $failed failed"
[ "$failed" = 0 ]
