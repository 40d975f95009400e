#!/usr/bin/env bash
# Tries the recorders and their drivers: the text of a worked run, the calls that a seed chooses, and the answer to each misuse.
# All runs of a double collect must be atomic, and one run of a naive collect must be caught. The last line is 'N passed, M
# failed', with ', K skipped' after it if a tool is missing; a line before it names the language.
# usage: test.sh [PROGRAM], where PROGRAM judges; SNAPJUDGE_PROGRAM may name it too
unset CDPATH
set -u
here=$(cd "$(dirname "${BASH_SOURCE[0]}")" && pwd)
program=$(realpath -m "${1:-${SNAPJUDGE_PROGRAM:-$here/../../built/snapjudge}}")
library=$(realpath -m "$here/../build/libsnapjudge.so")
part=record
. "$here/../../share/lib.sh"
work=$room
guide=$here/../../docs/OWN-OBJECT.md
pages=$here/../../docs/own-object
cd "$work" || exit 1

# ended STATUS COMMAND ..: the command ends with this status. The files `said` and `told` keep its standard output and standard error.
ended() {
  local status=$1 found
  shift
  timeout 900 "$@" >said 2>told
  found=$?
  cat said told
  [ "$found" = "$status" ]
}

# ends STATUS OUTPUT COMMAND ..: the command ends with this status, and writes this output
ends() {
  ended "$1" "${@:3}" && [ "$(cat said)" = "$2" ]
}

# What a driver writes after the counts of verdicts.
overlaps='; [0-9]+ of [0-9]+ views overlapped an update, in [0-9]+ of (1 run|(0|[2-9]|[1-9][0-9]+) runs)$'

# counts STATUS NAME ATOMIC ONLY-REGULAR NOT-REGULAR COMMAND ..: the driver ends so, and writes one line, with these counts of verdicts
counts() {
  ended "$1" "${@:6}" && [[ $(cat said) =~ ^"$2: atomic $3, only-regular $4, not-regular $5"$overlaps ]]
}

# unseen START OPTION ..: the driver of `faulty` ends with status 3, writes no verdict, and its last line on standard error
# begins with START
unseen() {
  ends 3 "" "${faulty[@]}" "${@:2}" && [[ $(tail -n 1 told) == "$1"* ]]
}

# misused START OPTION ..: the driver of `faulty` ends with status 4 instead
misused() {
  ends 4 "" "${faulty[@]}" "${@:2}" && [[ $(tail -n 1 told) == "$1"* ]]
}

# unwritten OUTPUT [OPTION ..]: the driver's standard output, a redirection, can't be written
unwritten() {
  local faulty=(sh -c "\"\$@\" $1" sh "${faulty[@]}")
  shift
  misused "stale: files: standard output can't be written" stale "$@"
}

# The calls that the drivers choose are those that are worked out independently: threads, components, calls, runs, seed, order.
chosen() {
  local of
  for of in "4 4 200 3 1 choice" "3 5 40 2 7 choice" "1 64 100 1 18446744073709551615 choice" "64 1 20 1 0 choice" "3 5 40 1 7 turn"; do
    read -r -a of <<<"$of"
    python3 -B "$here/choices.py" "${of[@]}" >wanted || return 1
    "${own[@]}" naive --choices --threads "${of[0]}" --components "${of[1]}" --calls "${of[2]}" --runs "${of[3]}" --seed "${of[4]}" \
      --order "${of[5]}" >found || return 1
    cmp wanted found || return 1
  done
}

# atomic [OPTION ..]: each run of the double collect is atomic, and the last line says so
atomic() {
  counts 0 double 20 0 0 "${own[@]}" double --runs 20 "$@" && [ "$(tail -n 1 told)" = "double: run 20 of 20: $(sed 's/^double: //' said)" ]
}

# One run of the naive collect is caught, and is kept. More than half of all runs are caught if threads run in the middle of a
# view. Were it one of 40, all 1,000 would be missed once in 10^11 times.
caught() {
  rm -f naive-*
  timeout 900 "${own[@]}" naive --runs 1000 --stop 1 "$@" >said 2>told
  [ $? = 1 ] && [[ $(cat said) =~ ^"naive: atomic "([0-9]+)", only-regular 1, not-regular 0"$overlaps ]] &&
    grep -q "^naive: run $((BASH_REMATCH[1] + 1)) is not atomic: see ./naive-caught.csv" told && judges_alike naive-caught.csv naive-witness.csv &&
    "$program" explain <naive-caught.csv | cmp - naive-explained.txt && "$program" shrink <naive-caught.csv | cmp - naive-witness.csv
}

# Runs in turns come again: each makes the calls, and changes the turns at the points, that are worked out independently. The options
# are threads, components, calls, runs, seed and depth.
in_turns() {
  local of words
  for of in "4 4 200 20 1 3" "3 5 40 60 7 5" "8 2 30 40 18446744073709551615 1"; do
    read -r -a of <<<"$of"
    words=(--schedule pct --threads "${of[0]}" --components "${of[1]}" --calls "${of[2]}" --runs "${of[3]}" --seed "${of[4]}" --depth "${of[5]}")
    rm -f naive-*
    python3 -B "$here/turns.py" "$program" "${of[@]}" >wanted
    timeout 900 "${own[@]}" naive "${words[@]}" --stop 1 --views 0 >said 2>told
    [ $? -le 2 ] || return 1
    [ ! -s wanted ] || cmp wanted naive-caught.csv || return 1
    [ -s wanted ] || [ ! -e naive-caught.csv ] || return 1
  done
}

# The runs make the calls that are chosen: of two runs the second alone is caught, and its threads begin what it has for them.
made() {
  rm -f second-*
  counts 2 second 1 0 1 "${faulty[@]}" second --threads 3 --components 5 --calls 40 --runs 2 --seed 7 || return 1
  python3 -B "$here/choices.py" 3 5 40 2 7 choice | sed -n 's/^2 //p' >wanted
  awk -F '[,:]' '$2 == "begin" { print $3, $4 ($4 == "update" ? " " $5 : "") }' second-caught.csv | cmp wanted -
}

# each of these histories is regular, and not atomic
judges_alike() {
  local history
  for history; do
    "$program" check --quiet <"$history" >/dev/null
    [ $? = 1 ] || return 1
  done
}

# What one thread and two components leave of an object that shows nothing new.
small_run=(stale --threads 1 --components 2 --calls 3 --order turn --runs 3)
cat >small-run.csv <<'TEXT'
at,event,process,op,data
0,begin,0,update,0:1:1000000
1,end,0,update,
2,begin,0,update,1:1:1000001
3,end,0,update,
4,begin,0,view,
5,end,0,view,
TEXT

# a run of more events than the judge takes if it is not asked for them; the words are a setting
long_run() {
  rm -f stale-*
  counts 2 stale 0 0 1 env "$@" "${faulty[@]}" stale --threads 2 --components 2 --calls 16385 --runs 1 --events 65540 &&
    [ "$("$program" check --quiet stale-witness.csv | tail -n 1)" = "atomic no" ] && [ "$(head -n 1 stale-explained.txt)" = "not regular" ]
}

# such runs are caught, and the first is kept to the byte; the words are a setting
stale() {
  rm -f stale-*
  counts 2 stale 0 0 3 env "$@" "${faulty[@]}" "${small_run[@]}" &&
    grep -qxF 'stale: run 1 is not atomic: see ./stale-caught.csv and the files beside it' told && cmp stale-caught.csv small-run.csv
}

# without_witness [OPTION ..]: a run is kept even if its witness can't be written, and then the driver names that
without_witness() {
  misused "stale: files: " "${small_run[@]}" "$@" && cmp stale-caught.csv small-run.csv
}

# a program that judges, and fails as on a full disk when it shrinks
shrinks_not() {
  rm -f stale-*
  without_witness --program ./shrinks-not && ! grep -q 'see ./stale-caught.csv and the files beside it' told
}

# a folder with a file in it is where the witness is to be
no_room_for_witness() {
  rm -f stale-*
  mkdir -p stale-witness.csv/full
  without_witness
  local status=$?
  rm -r stale-witness.csv
  return $status
}

# beside the history are its witness and its explanation
explained() {
  stale "$@" && cmp stale-witness.csv - <<'TEXT' && cmp stale-explained.txt - <<'WORDS'
event,process,op,data
begin,0,update,0:1:1000000
end,0,update,
begin,0,view,
end,0,view,
TEXT
not regular
proximity: view 3 shows 0:0, though update 0:1 had ended before the view began
  call 3 of process 0, records 6 and 7: view
  call 1 of process 0, records 2 and 3: update 0:1:1000000
WORDS
}

# Of the updates of one thread the first had no effect, the second is done, and of the third it is not known: the first is left out,
# the third has no end, and the thread makes no call after it. The dropped update has the stamp 0, which is no event's.
fails() {
  rm -f fails-*
  counts 2 fails 0 0 1 "${faulty[@]}" fails --threads 1 --components 1 --calls 9 --order turn --runs 1 &&
    cmp fails-caught.csv - <<'TEXT'
at,event,process,op,data
1,begin,0,view,
2,end,0,view,
3,begin,0,update,0:1:1000002
4,end,0,update,
5,begin,0,view,
6,end,0,view,
7,begin,0,update,0:2:1000004
TEXT
}

# unfinished OBJECT STATUS VERDICT [OPTION ..]: the run ends so, and what it made until then is a history of that verdict, with some
# call that has no end.
unfinished() {
  rm -f "$1-unfinished.csv"
  ended "$2" "${faulty[@]}" "$1" "${@:4}" || return 1
  grep -q "its calls so far are in ./$1-unfinished.csv" told || return 1
  "$program" check --quiet <"$1-unfinished.csv"
  [ $? = "$3" ] && awk -F, '$2 == "begin" { n++ } $2 == "end" { n-- } END { exit n < 1 }' "$1-unfinished.csv"
}

# without a program the library judges, and there is no witness; one of an earlier run is gone
library_alone() {
  touch stale-witness.csv
  stale SNAPJUDGE_LIBRARY="$library" SNAPJUDGE_PROGRAM=./none && [ ! -e stale-witness.csv ] && [ ! -e stale-explained.txt ]
}

# Programs that stand for the judge: one ends with 0 whatever it is given, one loses the status in a pipe, and one dies when it judges a
# run. Another one is beside a library, as it is installed, and only shrinks and explains.
mkdir -p wrong prefix/bin prefix/lib
printf '#!/bin/sh\nexit 0\n' >wrong/snapjudge
# shellcheck disable=SC2016
printf '#!/bin/sh\n"%s" "$@" | cat\n' "$program" >loses
# shellcheck disable=SC2016
printf '#!/bin/sh\n[ "$1" != check ] || { read -r head && [ "$head" = event,process,op,data ] && exit 2; kill -9 $$; }\nexec "%s" "$@"\n' "$program" >dies
# shellcheck disable=SC2016
printf '#!/bin/sh\n[ "$1" != check ] || kill -9 $$\nexec "%s" "$@"\n' "$program" >prefix/bin/snapjudge
# shellcheck disable=SC2016
printf '#!/bin/sh\n[ "$1" != shrink ] || exit 4\nexec "%s" "$@"\n' "$program" >shrinks-not
chmod +x wrong/snapjudge loses dies shrinks-not prefix/bin/snapjudge
[ ! -e "$library" ] || cp "$library" prefix/lib

# wrong_on_path: what is called snapjudge on the path is not a judge
wrong_on_path() {
  local faulty=(env -u SNAPJUDGE_PROGRAM PATH="$work/wrong:$PATH" "${faulty[@]}")
  misused "slow: no judge: " slow
}

# helps: the list of options goes to standard output, each with the words of the guide, and after it the objects
helps() {
  local word
  for word in --help -h; do
    ended 0 "${own[@]}" "$word" && [[ $(tail -n 1 said) =~ ^"objects: "(naive double|double naive)$ ]] &&
      diff <(sed -n '/^  --/ { s/^  \(--.\{15\}\)/\1: /; s/ *: /: /p; }' said) <(options_of_guide) || return 1
  done
}

# The rows of the guide's table of options, without marks, links and commas in numbers.
options_of_guide() {
  sed -n 's/^| `\(--[^`]*\)` | \(.*\) |$/\1: \2/p' "$guide" | sed -e 's/`//g' -e 's/\[\([^]]*\)\]([^)]*)/\1/g' -e 's/\([0-9]\),\([0-9]\)/\1\2/g'
}

# lists_objects: a name that is no object's is answered with those of all
lists_objects() {
  misused "other: usage: there is no object other" other && grep -q '^objects: .*\bstale\b' told && grep -q '^objects: .*\bgives-up\b' told
}

# the program and the library that are installed are found
installed() {
  explained -u SNAPJUDGE_LIBRARY -u SNAPJUDGE_PROGRAM PATH="$work/prefix/bin:$PATH"
}

# by_library: a driver that calls the library
by_library() {
  if [ -e "$library" ]; then
    try "$language: the library judges" explained SNAPJUDGE_LIBRARY="$library" SNAPJUDGE_PROGRAM=prefix/bin/snapjudge
    try "$language: the library alone judges" library_alone
    try "$language: the library judges more events" long_run SNAPJUDGE_LIBRARY="$library" SNAPJUDGE_PROGRAM=prefix/bin/snapjudge
    try "$language: what is installed is found" installed
    SNAPJUDGE_LIBRARY=$library try "$language: a folder that is not there, before a run is caught" \
      misused "gives-up: files: " gives-up --out ./none
  else
    skip "$language by the library" "$library is not here"
  fi
  SNAPJUDGE_LIBRARY=./none try "$language: a library that is not there" misused "stale: no judge: "
}

# drivers LANGUAGE: the tests of a driver, over the commands `own` and `faulty`. If no library is named, the program judges.
drivers() {
  language=$1
  local -x SNAPJUDGE_LIBRARY='' SNAPJUDGE_PROGRAM=$program
  has python3 "$language: choices" && try "$language: choices" chosen
  has python3 "$language: the calls of a run" && try "$language: the calls of a run" made
  has python3 "$language: turns" && try "$language: turns" in_turns
  try "$language: double collect" atomic
  try "$language: double collect, threads take turns" atomic --schedule pct
  try "$language: one slow component" counts 0 slow 5 0 0 "${faulty[@]}" slow --components 1 --nap 40 --calls 60 --runs 5
  try "$language: double collect in turn of 7 threads and 64 components" atomic --order turn --threads 7 --components 64 --calls 60
  try "$language: naive collect is caught" caught
  try "$language: naive collect with naps is caught" caught --nap 60 --calls 50
  try "$language: a stale object" explained
  try "$language: updates that fail" fails
  try "$language: updates that are tried again" counts 0 retries 5 0 0 "${faulty[@]}" retries --components 1 --nap 40 --calls 60 --runs 5
  try "$language: a view that gives up" unseen "gives-up: few views: 0 views ended in 2 runs, fewer than 1: " gives-up --runs 2
  try "$language: a view that gives up in one run" unseen "gives-up: few views: 0 views ended in 1 run, fewer than 1: " gives-up --runs 1
  try "$language: the same where no view is asked for" counts 0 gives-up 2 0 0 "${faulty[@]}" gives-up --runs 2 --views 0
  try "$language: too few views" unseen "slow: few views: " slow --components 1 --calls 10 --runs 1 --views 41
  try "$language: too few views of a caught run" counts 2 stale 0 0 3 "${faulty[@]}" "${small_run[@]}" --views 1000
  try "$language: one thread" unseen "slow: no overlap: none of " slow --components 1 --threads 1 --calls 10 --runs 2
  try "$language: a call that hangs" misused "hangs: hangs: a run took more than 1 s: a call of the object does not end" hangs --limit 1
  try "$language: what a call that hangs leaves" unfinished hangs 4 0 --limit 1
  try "$language: too many events" misused "stale: limits: events is a number from 2 to 1048576" stale --events 1048577
  try "$language: more events than the judge takes unasked" long_run
  try "$language: too many views" misused "stale: limits: views is a number from 0 to 1000000000" stale --views 1000000001
  for word in "threads 64" "components 64" "calls 524288" "runs 1000000000" "limit 100000" "depth 64"; do
    read -r name most <<<"$word"
    try "$language: no $name" misused "stale: limits: $name is a number from 1 to $most" stale "--$name" 0
    try "$language: too many $name" misused "stale: limits: $name is a number from 1 to $most" stale "--$name" $((most + 1))
  done
  try "$language: too many calls" misused "stale: limits: all threads make at most 32768 calls" stale --calls 8193
  try "$language: another order" misused "stale: usage: order is choice or turn" stale --order both
  try "$language: another schedule" misused "stale: usage: schedule is free or pct" stale --schedule both
  try "$language: another option" misused "stale: usage: there is no option --nope" stale --nope 1
  try "$language: a word that is not an option" misused "stale: usage: other is not an option" stale other
  try "$language: an option without its value" misused "stale: usage: --runs has no value" stale --runs
  try "$language: a word in place of a number" misused "stale: usage: --calls: abc is not a number" stale --calls abc
  try "$language: a number with a sign" misused "stale: usage: --seed: -1 is not a number" stale --seed -1
  try "$language: a number of 65 bits" misused "stale: limits: seed is a number from 0 to 18446744073709551615" stale --seed 18446744073709551616
  try "$language: help" helps
  try "$language: another object" lists_objects
  try "$language: a program that is not there" misused "stale: no judge: there is no program ./none" stale --program ./none
  try "$language: a program that judges nothing" misused "slow: no judge: " slow --program ./wrong/snapjudge
  try "$language: the same on the path" wrong_on_path
  try "$language: a program whose status is lost" misused "slow: no judge: of a history that is not regular the judge tells status 0, and not 2" \
    slow --program ./loses
  try "$language: a program that dies" misused "stale: no verdict: " stale --program ./dies
  try "$language: a folder that is not there" misused "stale: files: " stale --out ./none
  try "$language: a file in place of the folder" misused "stale: files: " stale --out ./dies
  try "$language: a witness that fails" shrinks_not
  try "$language: a folder in place of the witness" no_room_for_witness
  try "$language: a full disk" unwritten ">/dev/full" --runs 1
  try "$language: a full disk for the choices" unwritten ">/dev/full" --choices
  # Rust, and Go from 1.21 on, open /dev/null in the place of a closed output
  [[ $language == Rust || $language == Go ]] || try "$language: a closed output" unwritten ">&-" --runs 1
}

# throws LANGUAGE: the tests of a driver whose objects can show too little, or throw
throws() {
  local -x SNAPJUDGE_LIBRARY='' SNAPJUDGE_PROGRAM=$program
  try "$1: a view that is too short" misused "short: view: a view has 3 values of 4 components" short
  try "$1: an update that throws" misused "dies: died: a call of thread 0 " dies --threads 1
  try "$1: what a call that throws leaves" unfinished dies 4 0 --threads 1
  try "$1: an object that can't be made" misused "unmade: died: the object can't be made" unmade
  case $1 in
    C++ | Java | Python) try "$1: an update that throws otherwise" misused "odd: died: a call of thread 0 " odd --threads 1 ;;
  esac
}

# few_threads KILOBYTES: with this limit of address space 64 threads with wide stacks can't be started
few_threads() {
  local -x SNAPJUDGE_LIBRARY='' SNAPJUDGE_PROGRAM=$program RUST_MIN_STACK=8388608
  (ulimit -v "$1" && misused "stale: memory: thread " stale --threads 64)
}

# worked COMMAND ..: the tests of misuse pass, and the texts of both worked runs are as they must be
worked() {
  rm -f worked.csv failed.csv
  timeout 900 "$@" worked.csv failed.csv && cmp worked.csv "$here/worked.csv" && cmp failed.csv "$here/failed.csv"
}

# the judge finds what is wrong in the worked run, and nothing in that of failed calls
judged() {
  "$program" check <"$here/worked.csv" >report
  [ $? = 2 ] && [ "$(tail -n 1 report)" = "integrity 1 first view 5 entry 0:2:99" ] &&
    "$program" check --quiet --views 4 <"$here/failed.csv"
}

# the list of calls is of standard input, and no word is taken
lists_no_file() {
  ends 5 "" "$here/calls.sh" -x <"$here/worked.csv" && [ "$(cat told)" = "usage: calls.sh < caught.csv" ]
}

# ---- several processes, failed calls, and the page on both

page=$here/../../docs/RECORDING.md

# prints LINE COMMAND ..: the command prints this line, and no other
prints() {
  local line=$1
  shift
  timeout 900 "$@" >printed && cat printed && [ "$(cat printed)" = "$line" ]
}

# Of 1,000 runs of a naive collect by processes the first ones are atomic, and then one is regular. Nearly all are regular.
naive_processes() {
  local i
  for ((i = 0; i < 1000; i++)); do
    timeout 900 python3 -B "$here/python/processes.py" "$program" naive 1 >printed || return 1
    cat printed
    [ "$(cat printed)" != "naive: atomic 1, only-regular 0, not-regular 0, refused 0" ] && break
  done
  [ "$(cat printed)" = "naive: atomic 0, only-regular 1, not-regular 0, refused 0" ]
}

# judge_c_processes OBJECT: the status of the judge on one run of processes in C
judge_c_processes() {
  timeout 900 ./processes_c "$1" && python3 -B "$here/python/merge_logs.py" 0.log 1.log 2.log >history.csv || return 4
  "$program" check --quiet --views 300 <history.csv >/dev/null
}

# each of 20 runs is atomic
c_lock() {
  local i
  for ((i = 0; i < 20; i++)); do judge_c_processes lock || return 1; done
}

# Of 1,000 runs the first ones are atomic, and then one is regular. Of ten runs more than five are.
c_naive() {
  local i status=0
  for ((i = 0; i < 1000 && status == 0; i++)); do
    judge_c_processes naive
    status=$?
    echo "status $status"
  done
  [ $status = 1 ]
}

# the commands of the page print what is below them
commands() {
  mkdir -p page/ffi
  ln -sfn "$here" page/ffi/record
  ln -sfn "$program" page/snapjudge
  python3 -B "$here/commands.py" "$page" page
}

try_processes() {
  local way all="atomic 20, only-regular 0, not-regular 0, refused 0" none="atomic 0, only-regular 0, not-regular 20, refused 0"
  try "processes: logs and what is wrong with them" python3 -B -W error "$here/python/misuse_logs.py" "$program"
  try "processes: all orders of the calls of small runs" python3 -B -W error "$here/python/try_orders.py" "$program"
  try "processes: histories of Jepsen" python3 -B -W error "$here/python/try_jepsen.py" "$program"
  try "processes: board under a lock" prints "lock: $all" python3 -B "$here/python/processes.py" "$program" lock 20
  try "processes: naive collect is caught" naive_processes
  if has cc "processes in C"; then
    try "processes: C builds" cc -std=gnu11 -Wall -Wextra -pedantic -Werror -O2 -o processes_c "$here/c/processes.c" -pthread
    try "processes: C, board under a lock" c_lock
    try "processes: C, naive collect is caught" c_naive
  fi
  for way in drop again unknown; do
    try "failed updates: $way" prints "$way: $all" python3 -B "$here/python/failing.py" "$program" "$way" 20
  done
  try "failed updates: one that is ended as done" prints "end: $none" python3 -B "$here/python/failing.py" "$program" end 20
  try "processes: commands of the page" commands
  try "processes: listings of the page" python3 -B "$here/listings.py" "$page" "$here" python c
}

# ---- the recorders of each language

# each listing of the pages is in a file of its language
listings() {
  cat "$pages"/*.md >pages.md && python3 -B "$here/listings.py" pages.md "$here"
}

# first_verdict LANGUAGE: the command of its page ends with 1 in a copy of the recorders, and says that a run was caught. It makes 20 runs,
# of which most are caught, and on one core some. It is called once, or up to 50 times until one is.
first_verdict() {
  local command i status=0
  local -x SNAPJUDGE_PROGRAM=$program
  command=$(sed -n 's|^\$ cd /tmp/own/|cd |p' "$pages/$1.md")
  [ -e guided ] || cp -r "$here" guided
  for ((i = 0; i < 50 && status == 0; i++)); do
    (cd guided && timeout 900 sh -c "$command" >"$work/said")
    status=$?
  done
  cat said
  [ $status = 1 ] && [[ $(tail -n 1 said) =~ ^"naive: atomic "[0-9]+", only-regular "[1-9][0-9]*", not-regular 0"$overlaps ]]
}

# sanitized COMPILER FLAG FOLDER ENDING: no race is found between threads that call both boards, nor when updates fail
sanitized() {
  local name object
  local -x SNAPJUDGE_PROGRAM=$program
  for name in own faulty; do
    "$1" "$2" -O1 -g -fsanitize=thread -o "sanitized_$name" "$here/$3/$name.$4" -pthread || return 1
  done
  for object in "own double" "own naive" "own naive --nap 20 --calls 40" "faulty retries --components 1 --nap 20 --calls 40"; do
    read -r -a object <<<"$object"
    timeout 900 "./sanitized_${object[0]}" "${object[@]:1}" --runs 3 >said 2>told
    if [ $? -gt 1 ] || grep -q ThreadSanitizer told || ! [ -s said ]; then
      cat said told
      return 1
    fi
  done
}

# ---- the order of calls: what a recorder says happened before, ThreadSanitizer and the race detector of Go see

ordered_c() { cc -std=gnu11 -O1 -g -fsanitize=thread -o ordered "$1/ordered.c" -pthread; }

ordered_cpp() { c++ -std=c++17 -O1 -g -fsanitize=thread -o ordered "$1/ordered.cpp" -pthread; }

ordered_rust() { rustc +nightly --edition 2021 -O -Zsanitizer=thread -Cunsafe-allow-abi-mismatch=sanitizer -o ordered "$1/ordered.rs"; }

ordered_go() { (cd "$1" && go build -race -o "$work/ordered" ./ordered); }

# in_order FOLDER: a word that is written and read in calls that follow each other is in no race
in_order() {
  "ordered_$1" "$here/$1" && ends 0 "$(calls_in_turn)" ./ordered && ! [ -s told ]
}

# The history of 20 updates and 20 views in turn.
calls_in_turn() {
  echo "at,event,process,op,data"
  awk 'BEGIN { for (i = 0; i < 20; i++) printf "%d,begin,0,update,0:%d:%d\n%d,end,0,update,\n", 4 * i, i + 1, i + 1, 4 * i + 1
    for (i = 0; i < 20; i++) printf "%d,begin,1,view,\n%d,end,1,view,0:%d:%d\n", 4 * i + 2, 4 * i + 3, i + 1, i + 1 }'
}

# wrong_clock FOLDER FILE CHANGE: with this change of a recorder, an expression of sed, the same word is in a race, and that is seen
wrong_clock() {
  rm -rf clocked
  cp -r "$here/$1" clocked
  sed "$3" "$here/$1/$2" >"clocked/$2"
  ! cmp -s "$here/$1/$2" "clocked/$2" && "ordered_$1" clocked || return 1
  ended 66 ./ordered && grep -qi "warning: .*data race" told
}

# try_order LANGUAGE FOLDER FILE OLD NEW ..: calls are in order by the recorder, and not by one whose clock has other words
try_order() {
  local wrong
  try "$1: calls are in order" in_order "$2"
  for wrong in "${@:5}"; do
    try "$1: a wrong clock is seen: $wrong" wrong_clock "$2" "$3" "s/$4/$wrong/"
  done
}

# ---- copies of logs: what is recorded in one would be lost

# refused_copy RIGHT WRONG COMMAND ..: the command takes a program with the first words, and not with the others
refused_copy() {
  printf '%s\n' "$1" >copy_right
  printf '%s\n' "$2" >copy_wrong
  "${@:3}" copy_right || return 1
  ! "${@:3}" copy_wrong 2>refused || return 1
  cat refused
}

# copied_cpp HOW: a program that takes a log so
copied_cpp() {
  printf '#include "%s/cpp/snaprecord.hpp"\nint main() { snaprecord::Recorder r(1, 1, 1); %s log = r.log(0); return !log.begin_view(); }' "$here" "$1"
}

no_copy_in_cpp() {
  refused_copy "$(copied_cpp 'auto &')" "$(copied_cpp auto)" c++ -std=c++17 -fsyntax-only -x c++ && grep -q deleted refused
}

copied_rust() {
  printf '#[path = "%s/rust/snaprecord.rs"]\nmod snaprecord;\nfn main() { let mut r = snaprecord::Recorder::new(1, 1, 1).unwrap();' "$here"
  printf ' let %s; assert!(log.begin_view()); drop(r.text()); }' "$1"
}

no_copy_in_rust() {
  local command=(rustc --edition 2021 --emit metadata -o copy_metadata)
  refused_copy "$(copied_rust 'log = &mut r.logs[0]')" "$(copied_rust 'mut log = r.logs[0].clone()')" "${command[@]}" && grep -q E0599 refused &&
    refused_copy "$(copied_rust 'log = &mut r.logs[0]')" "$(copied_rust 'mut log = r.logs[0]')" "${command[@]}" && grep -q E0507 refused
}

copied_go() {
  printf 'package main\n\nimport "snaprecord"\n\nfunc main() {\n'
  printf '\trecorder, _ := snaprecord.New[uint32](1, 1, 1)\n\tkept := recorder.Log(0)\n\tlog := %s\n\tlog.BeginView()\n}\n' "$1"
}

# go vet warns of a copy, if it is not of what a call answers; that one the recorder refuses
no_copy_in_go() {
  rm -rf copied
  cp -r "$here/go" copied
  mkdir copied/copy
  copied_go kept >copied/copy/copy.go
  (cd copied && go vet ./copy) || return 1
  copied_go '*kept' >copied/copy/copy.go
  (cd copied && ! go vet ./copy) 2>refused || return 1
  cat refused
  grep -q 'copies lock value' refused
}

# the same threads with logs of a quarter of their calls: what was recorded until the first was full is atomic
full() {
  local own=(./full)
  local -x SNAPJUDGE_PROGRAM=$program
  sed 's/(uint32_t)options->calls)/(uint32_t)options->calls \/ 4)/' "$here/c/snapdrive.h" >snapdrive.h &&
    ! cmp -s snapdrive.h "$here/c/snapdrive.h" && cp "$here/c/own.c" full.c && cc -std=gnu11 -O2 -I. -I"$here/c" -o full full.c -pthread && atomic --seed 2
}

# whether the compiler has ThreadSanitizer
sanitizes() {
  echo 'int main(void) { return 0; }' >empty.c
  "$1" -fsanitize=thread -o empty empty.c 2>/dev/null && ./empty && return 0
  skip "$2 without races" "ThreadSanitizer of $1 is not here"
  return 1
}

# crashes LANGUAGE: what an object leaves that ends the process, after the 30th of its updates had its effect and before it ended, and
# one that fills its stack
crashes() {
  local -x SNAPJUDGE_LIBRARY='' SNAPJUDGE_PROGRAM=$program
  try "$1: what an object leaves that crashes" crashed
  try "$1: what an object leaves whose stack is full" overflowed_once
}

crashed() {
  unfinished crashes 139 0 --components 1 --nap 20 && [ "$(grep -c ',begin,.*,update,' crashes-unfinished.csv)" -ge 30 ]
}

overflowed() {
  rm -f overflows-unfinished.csv
  ended 139 "${faulty[@]}" overflows && [ "$(head -n 1 overflows-unfinished.csv)" = at,event,process,op,data ] &&
    grep -q ',begin,.*,view,' overflows-unfinished.csv
}

# several threads fill their stacks at once, and now and then the system ends the process before the first of them has written
overflowed_once() {
  local turn
  for turn in 1 2 3 4 5; do
    ! overflowed || return 0
  done
  return 1
}

try_c() {
  local flags=(-Wall -Wextra -pedantic -Werror -O2) own=(./own_c) faulty=(./faulty_c)
  try "C: the recorder is C11 alone" cc -std=c11 "${flags[@]}" -fsyntax-only -include "$here/c/snaprecord.h" -x c /dev/null
  try "C: builds" cc -std=gnu11 "${flags[@]}" -o misuse_c "$here/c/misuse.c"
  try "C: harness builds" cc -std=gnu11 "${flags[@]}" -Wno-unused-parameter -o own_c "$here/c/own.c" -pthread
  try "C: faulty objects build" cc -std=gnu11 "${flags[@]}" -o faulty_c "$here/c/faulty.c" -pthread
  try "C: misuse" worked ./misuse_c
  drivers C
  by_library
  crashes C
  try "C: threads that can't be started" few_threads 150000
  try "C: threads that wait for others, and take turns" counts 0 waits 5 0 0 ./faulty_c waits --schedule pct --runs 5 --calls 20 --program "$program"
  try "C: the command of its page" first_verdict c
  try "C: logs that get full" full
  try "C: builds a caller" cc -std=gnu11 "${flags[@]}" -o caller "$here/c/caller.c" -pthread
  SNAPJUDGE_LIBRARY='' SNAPJUDGE_PROGRAM=$program try "C: a caller with an alarm, and two objects at once" ./caller
  if sanitizes cc C; then
    try "C: without races" sanitized cc -std=gnu11 c c
    try_order C c snaprecord.h memory_order_acq_rel memory_order_{relaxed,acquire,release}
  fi
}

try_cpp() {
  local flags=(-std=c++17 -Wall -Wextra -pedantic -Werror -O2) own=(./own_cpp) faulty=(./faulty_cpp)
  try "C++: builds" c++ "${flags[@]}" -o misuse_cpp "$here/cpp/misuse.cpp"
  try "C++: harness builds" c++ "${flags[@]}" -o own_cpp "$here/cpp/own.cpp" -pthread
  try "C++: faulty objects build" c++ "${flags[@]}" -o faulty_cpp "$here/cpp/faulty.cpp" -pthread
  try "C++: misuse" worked ./misuse_cpp
  drivers C++
  by_library
  crashes C++
  throws C++
  try "C++: threads that can't be started" few_threads 150000
  try "C++: the command of its page" first_verdict cpp
  try "C++: no copies of logs" no_copy_in_cpp
  if sanitizes c++ C++; then
    try "C++: without races" sanitized c++ -std=c++17 cpp cpp
    try_order C++ cpp snaprecord.hpp memory_order_acq_rel memory_order_relaxed
  fi
}

try_rust() {
  local flags=(--edition 2021 -D warnings -O) own=(./own_rs) faulty=(./faulty_rs)
  try "Rust: builds" rustc "${flags[@]}" --test -o misuse_rs "$here/rust/misuse.rs"
  try "Rust: harness builds" rustc "${flags[@]}" -o own_rs "$here/rust/own.rs"
  try "Rust: faulty objects build" rustc "${flags[@]}" -o faulty_rs "$here/rust/faulty.rs"
  try "Rust: misuse" ./misuse_rs -q
  drivers Rust
  by_library
  throws Rust
  try "Rust: threads that can't be started" few_threads 150000
  try "Rust: the command of its page" first_verdict rust
  try "Rust: no copies of logs" no_copy_in_rust
  if ordered_rust "$here/rust" 2>/dev/null; then
    try_order Rust rust snaprecord.rs Ordering::AcqRel Ordering::Relaxed
  else
    skip "Rust: the order of calls" "a nightly rustc with ThreadSanitizer is not here"
  fi
}

# Threads with stacks of 100 MB, in a Java that has so little memory itself that it starts under the limit.
few_java_threads() {
  local little=(-Xlog:disable -Xss100m -Xmx64m -XX:+UseSerialGC -XX:TieredStopAtLevel=1 -XX:CompressedClassSpaceSize=16m -XX:ReservedCodeCacheSize=32m)
  local faulty=(java "${little[@]}" -cp java Faulty)
  if (ulimit -v 4000000 && "${faulty[@]}" stale --choices) >/dev/null 2>&1; then
    try "Java: threads that can't be started" few_threads 4000000
  else
    skip "Java: threads that can't be started" "a Java that starts in 4 GB of addresses is not here"
  fi
}

# judging WORDS: the program ./judges, which judges, and calls these before each check of runs, whose texts have stamps
judging() {
  rm -f numbered-* starts checked seen
  # shellcheck disable=SC2016
  printf '#!/bin/sh\n[ "$1" != check ] || head -qc 6 run-* 2>/dev/null | grep -q "^event," || { %s; }\nexec "%s" "$@"\n' "$1" "$program" >judges
  chmod +x judges
}

# nothing_left: no file of a run that was judged is there
nothing_left() {
  [ -z "$(find . -maxdepth 1 -name 'run-*')" ]
}

# runs of two calls, which ./judges judges, in batches if they are not slow
batched=(--threads 1 --components 1 --calls 2 --order turn --views 0 --program ./judges)

# fourth_is_kept: of the runs of `numbered` the fourth was reported and kept, and its view shows a 4
fourth_is_kept() {
  grep -qxF "numbered: run 4 is not atomic: see ./numbered-caught.csv and the files beside it" told &&
    [ "$(tail -n 1 numbered-caught.csv)" = "3,end,0,view,0:1:4" ] && "$program" explain <numbered-caught.csv | cmp - numbered-explained.txt &&
    nothing_left
}

# batch WORDS NEITHER OPTION ..: runs of which this many are caught, while the program calls these words
batch() {
  judging "$1"
  counts 2 numbered 3 0 "$2" "${faulty[@]}" numbered "${batched[@]}" "${@:3}" && fourth_is_kept
}

# batch_fails WORDS START OPTION ..: the fourth run is kept, and then the driver ends with a line that begins with START
batch_fails() {
  judging "$1"
  misused "$2" numbered "${batched[@]}" "${@:3}" && fourth_is_kept
}

# judge_fails WORDS START: the program fails after the first run
judge_fails() {
  judging "$1"
  misused "$2" numbered "${batched[@]}" --runs 8 && nothing_left
}

# The first run is judged alone, and then batches double up to 64, so 300 runs need ten of them. If one has fewer runs, half a
# second has passed. While the program reads files, there are no others.
# shellcheck disable=SC2016
few_starts() {
  local begun=$SECONDS
  judging 'echo $# $(ls run-* | wc -l) >>starts'
  counts 0 gives-up 300 0 0 "${faulty[@]}" gives-up "${batched[@]}" --runs 300 || return 1
  cat starts
  [ "$(head -n 1 starts)" = "2 1" ] && [ "$(wc -l <starts)" -le $((10 + 2 * (SECONDS - begun + 1))) ] &&
    awk '$2 != ($1 == 2 ? 1 : $1 - 5) || $2 > 64 { exit 1 }' starts
}

# slow runs are judged one by one
slow_runs() {
  judging 'echo >>starts'
  counts 0 slows 4 0 0 "${faulty[@]}" slows "${batched[@]}" --runs 4 && [ "$(wc -l <starts)" = 4 ]
}

# with room for one character, each run is a batch
bounded_batches() {
  judging 'echo >>starts'
  rm -rf bounded
  cp -r "$here/java" bounded
  sed 's/MOST_CHARACTERS = 1 << 24/MOST_CHARACTERS = 1/' "$here/java/SnapDriver.java" >bounded/SnapDriver.java
  ! cmp -s bounded/SnapDriver.java "$here/java/SnapDriver.java" && javac -d bounded bounded/*.java || return 1
  counts 0 gives-up 5 0 0 java -cp bounded Faulty gives-up "${batched[@]}" --runs 5 && [ "$(wc -l <starts)" = 5 ]
}

# the driver is ended while the program reads the files of its second start, and they are gone
# shellcheck disable=SC2016
ended_in_batch() {
  judging '[ ! -e checked ] || { ls run-* >seen; kill $PPID; while kill -0 $PPID 2>/dev/null; do sleep 0.1; done; exit; }; touch checked'
  ends 143 "" "${faulty[@]}" numbered "${batched[@]}" --runs 8 && [ -s seen ] && nothing_left
}

# If a batch is not judged at once, its runs are judged one by one.
# shellcheck disable=SC2016
java_batches() {
  local died="numbered: died: a call of thread 0 threw " alone='[ $# = 2 ] ||' seen="grep -q ':5$' run-*"
  try "Java: the first of a batch is kept" batch : 2 --runs 5
  try "Java: a batch with the last run that counts" batch : 1 --runs 5 --stop 1
  try "Java: a fault after the last run that counts" batch : 1 --runs 8 --stop 1
  try "Java: a fault after runs that are not judged" batch_fails : "$died" --runs 8
  try "Java: no verdict on a run of a batch" batch_fails "! $seen || exit 4" "numbered: no verdict: the judge ends with status 4" --runs 5
  try "Java: a program that knows no batches" batch "$alone exit 0" 2 --runs 5
  try "Java: a program that leaves out a run" batch "$alone { \"$program\" \"\$@\" >all; found=\$?; sed 1,3d all; exit \$found; }" 2 --runs 5
  try "Java: a program that ends otherwise than it tells" batch "$alone { \"$program\" \"\$@\" | sed 's/ no/ yes/'; exit 2; }" 2 --runs 5
  try "Java: a full disk for a batch" batch '[ $# != 2 ] || ln -sfn /dev/full run-$PPID-0-1.csv' 2 --runs 5
  try "Java: a program that fails later" judge_fails '[ ! -e checked ] || exit 4; touch checked' "numbered: no verdict: the judge ends with status 4"
  try "Java: a program that is gone later" judge_fails 'rm judges' "numbered: files: a file can't be written, or the program can't be run: "
  try "Java: few starts of the program" few_starts
  try "Java: slow runs are judged at once" slow_runs
  try "Java: batches of few characters" bounded_batches
  try "Java: ended in a batch" ended_in_batch
}

# the listing of the page and its main are a program
guide_in_java() {
  mkdir -p guide_java
  {
    echo "import java.util.concurrent.atomic.AtomicLongArray;"
    echo "public final class Guide {"
    sed -n '/^```java$/,/^```$/ { /^```/d; p }' "$pages/java.md"
    sed -n 's/^Start it by `\(public static void main.*\)`\.$/\1/p' "$pages/java.md"
    echo "}"
  } >guide_java/Guide.java
  javac -Xlint:all -Werror -d guide_java -cp java guide_java/Guide.java && grep -q "SnapDriver.main" guide_java/Guide.java &&
    ended 0 java -cp guide_java:java Guide --help
}

try_java() {
  local own=(java -cp java Own) faulty=(java -cp java Faulty)
  try "Java: builds" javac -Xlint:all -Werror -d java "$here"/java/*.java
  try "Java: misuse" worked java -cp java Misuse
  drivers Java
  throws Java
  java_batches
  few_java_threads
  try "Java: the command of its page" first_verdict java
  try "Java: the listing of its page" guide_in_java
}

try_python() {
  local own=(python3 -B "$here/python/own.py") faulty=(python3 -B "$here/python/faulty.py")
  try "Python: misuse" python3 -B -W error "$here/python/misuse.py"
  drivers Python
  by_library
  throws Python
  try "Python: threads that can't be started" few_threads 250000
  try "Python: the command of its page" first_verdict python
  try "listings of the pages" listings
}

# Go finds a module by the folder that it is called in
go_builds() {
  (cd "$here/go" && go build -o "$work/$1" "./$2")
}

go_is_tidy() {
  (cd "$here/go" && go vet ./... && [ -z "$(gofmt -l .)" ])
}

# a driver without cgo, which calls no library
without_cgo() {
  local faulty=(./faulty_plain)
  CGO_ENABLED=0 go_builds faulty_plain faulty && SNAPJUDGE_PROGRAM=$program explained SNAPJUDGE_LIBRARY=
}

go_tests_porcupine() {
  (cd "$here/go" && SNAPJUDGE_PROGRAM=$program go test ./fromporcupine)
}

# stored KIND LEAST MOST: the history of such a store, by operations and by events, is judged with a status from LEAST to MOST
stored() {
  local how status
  [ -x stored_go ] || go_builds stored_go stored || return 1
  for how in operations events; do
    ./stored_go "$1" stored.csv "$how" || return 1
    "$program" check --quiet stored.csv
    status=$?
    [ "$status" -ge "$2" ] && [ "$status" -le "$3" ] || return 1
  done
}

try_go() {
  local kind own=(./own_go) faulty=(./faulty_go)
  local -x GOCACHE=$work/go-build GOFLAGS=-buildvcs=false GOPROXY=off
  try "Go: builds" go_builds misuse_go misuse
  try "Go: harness builds" go_builds own_go own
  try "Go: faulty objects build" go_builds faulty_go faulty
  try "Go: is tidy" go_is_tidy
  try "Go: misuse" worked ./misuse_go
  drivers Go
  by_library
  throws Go
  try "Go: without cgo" without_cgo
  try "Go: operations of Porcupine" go_tests_porcupine
  for kind in "right 0 0" "stale 1 2" "lost 1 2"; do
    read -r -a kind <<<"$kind"
    try "Go: the example of Porcupine, ${kind[0]}" stored "${kind[@]}"
  done
  has python3 "Go: the listing of Porcupine" && try "Go: the listing of Porcupine" python3 -B "$here/listings.py" "$here/../../docs/PORCUPINE.md" "$here" go
  try "Go: the command of its page" first_verdict go
  try "Go: no copies of logs" no_copy_in_go
  if ordered_go "$here/go" 2>/dev/null; then
    try "Go: calls are in order" in_order go
    # a bare reading of a clock orders nothing
    try "Go: a wrong clock is seen" wrong_clock go snaprecord.go 's/log.recorder.clock.Add(1) - 1/uint64(time.Now().UnixNano())/; s/^import ($/&"time"/'
  else
    skip "Go: the order of calls" "the race detector of Go is not here"
  fi
}

if [ -x "$program" ]; then
  try "worked run" judged
  try "a list of calls, and a word" lists_no_file
  has python3 "the first five minutes" && try "the first five minutes of the guide" python3 -B "$here/guide.py" "$guide" "$here" "$program" guide
  has cc C && try_c
  has c++ C++ && try_cpp
  has rustc Rust && try_rust
  has javac Java && has java Java && try_java
  has go Go && try_go
  has python3 Python && try_python
  has python3 "processes and failed updates" && try_processes
else
  fail_test "there is no program $program"
fi

end_tests
