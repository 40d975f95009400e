#!/usr/bin/env bash
# Tries the harnesses that need no server: the right ways to read are atomic in each run, and the wrong ones are caught if others
# are let in between two reads. If etcd is there, its cluster is tried too. The last line is 'N passed, M failed', with ', K skipped'
# after it if something is missing; a line before it names that.
# usage: test.sh [PROGRAM], where PROGRAM judges; SNAPJUDGE_PROGRAM may name it too
unset CDPATH
set -u
here=$(cd "$(dirname "${BASH_SOURCE[0]}")" && pwd)
program=$(realpath -m "${1:-${SNAPJUDGE_PROGRAM:-$here/../../built/snapjudge}}")
part=systems
. "$here/../../share/lib.sh"
work=$room
cd "$work" || exit 1

# rows HARNESS RUNS ROW ..: this many runs of each way; the table has each of these rows
rows() {
  local harness=$1 runs=$2 row
  shift 2
  python3 -B -W error "$here/$harness.py" "$program" "$work" "$runs" >table || return
  for row; do
    grep -qxF "| $row |" table || { cat table && echo "no row: $row" && return 1; }
  done
}

# forced SYSTEM LINE ..: what the judge says first of each wrong way whose interleaving is forced
forced() {
  local system=$1
  shift
  printf '%s\n' "$@" >expected
  python3 -B -W error "$here/forced.py" "$program" "$system" >lines && diff expected lines
}

# witnessed WAY FILE: the first caught run of a way is in the file, and its witness is below the last table
witnessed() {
  sed "1,/^Witness: $1/d" table | sed '1,/^```$/d; /^```$/,$d' >witness
  [ -s witness ] && "$program" shrink <"$2" | diff witness -
}

# missing HARNESS TOOL: the harness says that there is no such program
missing() {
  local python status
  python=$(python3 -c 'import sys; print(sys.executable)')
  PATH=/nowhere "$python" -B "$here/$1.py" "$program" "$work" 1 >said
  status=$?
  [ $status = 77 ] && [ "$(cat said)" = "skipped: $2 is not here" ]
}

# short: the harnesses of the page have at most 60 lines each, as it says
short() {
  python3 -B - "$here" <<'PYTHON'
import pathlib, re, sys
folder = pathlib.Path(sys.argv[1])
names = re.findall(r'"(\w+)"', re.search(r"HARNESSES = \[(.*)\]", (folder / "all.py").read_text()).group(1))
lines = {name: len((folder / name).read_text().splitlines()) for name in [f"{name}.py" for name in names] + ["Copies.java"]}
print(lines)
sys.exit(len(names) != 7 or max(lines.values()) > 60)
PYTHON
}

# is_over PID: whether this process has ended; the system may still keep its number
is_over() {
  ! [ -e "/proc/$1" ] || grep -q '^State:.Z' "/proc/$1/status"
}

# wait_until COMMAND ..: whether the command succeeds within two minutes
wait_until() {
  local tenths
  for ((tenths = 0; tenths < 1200; tenths++)); do
    "$@" && return 0
    sleep 0.1
  done
  return 1
}

# served SIGNAL: a server ends with its harness, which this signal ends; the folder goes too, if the harness can do anything
served() {
  local harness
  rm -f serves ready
  cat >serves.py <<'PYTHON'
import os, pathlib, signal, time
signal.signal(signal.SIGINT, signal.SIG_DFL)
pathlib.Path("starts").write_text(str(os.getpid()))
os.rename("starts", "serves")  # it is there with all that it says
time.sleep(600)
PYTHON
  cat >harnessed.py <<'PYTHON'
import pathlib, sys, time
from harness import scratch, server
with scratch() as folder, server([sys.executable, "serves.py"], pathlib.Path("serves").read_text):
    pathlib.Path("ready").write_text(folder)
    time.sleep(600)
PYTHON
  PYTHONPATH=$here python3 -B harnessed.py &
  harness=$!
  wait_until [ -s ready ] && kill -s "$1" $harness
  wait $harness
  [ -s ready ] && wait_until is_over "$(cat serves)" || return
  case $1 in
    KILL) rmdir "$(cat ready)" ;;
    *) ! [ -e "$(cat ready)" ] ;;
  esac
}

try_sqlite() {
  local right=() journal fault="write 3 first view 4 misses 0:2 shows 1:2"
  for journal in WAL "rollback journal"; do
    right+=("one SELECT, $journal | 3 | 0 | 0" "a SELECT a row, in one transaction, $journal | 3 | 0 | 0")
  done
  try "SQLite: right ways" rows sqlite 3 "${right[@]}"
  try "SQLite: a SELECT a row" forced sqlite "a SELECT a row, autocommit, WAL: $fault" \
    "a SELECT a row, autocommit, rollback journal: $fault"
}

# A file that is renamed in the middle of a long listing may be left out of it. Each of 120 files that are so renamed has a chance
# of about 0.77 to be listed all the same: on one file system in 10^13 none is left out.
forced_files() {
  python3 -B -W error "$here/forced.py" "$program" files >lines && grep -E '^os.listdir, 1500 other files: proximity .* old$' lines
}

# Only of ext4 it is known that a short folder is listed at one moment.
try_files() {
  local found
  found=$(findmnt -no FSTYPE -T "$work")
  if [ "$found" = ext4 ]; then
    try "files: a short folder" rows files 2 "os.listdir, 0 other files | 2 | 0 | 0"
    try "files: a long folder" forced_files
  else
    skip files "temporary files lie on $found"
  fi
}

# has_records: whether javac takes records, which came with Java 16; else Java is skipped
has_records() {
  local version
  version=$(javac -version 2>&1 | sed 's/^javac \([0-9]*\).*/\1/')
  [ "$version" -ge 16 ] && return 0
  skip Java "javac is of Java $version, and 16 is wanted"
  return 1
}

try_java() {
  local fault="write 1 first view 1 misses 0:1 shows 63:1"
  try "Java: a copy under the lock" rows copies 3 "new TreeMap(synchronizedMap), its lock held | 3 | 0 | 0"
  try "Java: other copies" forced copies "new TreeMap(synchronizedMap): $fault" "ConcurrentSkipListMap.clone(): $fault" \
    "ConcurrentHashMap, iterated: $fault"
}

# A node that is cut off from the others misses everything that they write, so a read of its own state is old.
try_etcd() {
  local expected=("serializable range, a node cut off | 0 | 0 | 1") failure
  for failure in "no failure" "a node killed" "a node stopped" "a node cut off"; do
    expected+=("linearizable range, $failure | 1 | 0 | 0")
  done
  try "etcd: a node that fails" rows etcd 1 "${expected[@]}"
}

# is_root WHAT: whether this is root, who may make network namespaces; else what needs them is skipped
is_root() {
  [ "$(id -u)" = 0 ] && return 0
  skip "$1" "network namespaces need root"
  return 1
}

# Seeds choose the steps of these runs, so each run has its verdict everywhere.
try_published() {
  local early="borrows at the first move; calls" old="embeds an old scan; calls"
  try "published snapshots" rows published 3 "right; calls in turn | 3 | 0 | 0" "right; calls by choice | 3 | 0 | 0" \
    "$early in turn | 0 | 0 | 3" "$early by choice | 0 | 0 | 3" "$old in turn | 3 | 0 | 0" "$old by choice | 0 | 0 | 3"
  try "the first caught run" witnessed "$old by choice" published-embeds-an-old-scan-calls-by-choice.csv
}

if [ -x "$program" ]; then
  try_published
  try_sqlite
  has findmnt files && try_files
  has javac Java && has java Java && has_records && try_java
  has etcd etcd && has ip etcd && has setpriv etcd && is_root etcd && try_etcd
  try "a missing server" missing redis redis-server
  try "lines of the harnesses" short
  if has setpriv "ends of servers"; then
    try "the server of a harness that is ended" served TERM
    try "the server of a harness that is killed" served KILL
  fi
else
  fail_test "there is no program $program"
fi

end_tests
