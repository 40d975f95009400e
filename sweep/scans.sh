#!/usr/bin/env bash
# Records runs of three and more workers, and judges each. With scans every run is atomic. Without them every run is regular, and
# some run is not atomic: it is looked for until it comes, since on a machine with few processors many runs may be atomic by chance.
# seeds.py tries the seeds of runs. The last line is 'N passed, M failed'.
# usage: scans.sh [PROGRAM]; it is built/snapjudge by default
case ${1-} in
  -h | --help)
    sed -n '2,/^[^#]/ s/^# \{0,1\}//p' "$0"
    exit 0
    ;;
esac
set -u
here=$(cd "$(dirname "${BASH_SOURCE[0]}")" && pwd)
program=$(realpath -m "${1:-$here/../built/snapjudge}")
passed=0
failed=0
report=$(mktemp)
trap 'rm -f "$report"' EXIT

# How many runs with scans there are, and how many there are at most without.
runs=20
most=1000

# run WORKERS [--scan]: records and judges one run, and says what it was: atomic, regular, or neither of them.
run() {
  local status
  "$program" record --judge --rounds 1024 --workers "$@" >"$report" 2>&1
  status=$?
  case "$status $(sed -n '2,4p' "$report" | tr '\n' ' ')" in
    "0 regular yes monotone yes atomic yes ") said=atomic ;;
    "1 regular yes monotone yes atomic no ") said=regular ;;
    *) said="neither: it ended with $status, and its report begins with $(head -n 4 "$report" | tr '\n' ';')" ;;
  esac
}

# Whether each run of this many workers that scan is atomic.
scans() {
  for count in $(seq "$runs"); do
    run "$1" --scan
    [ "$said" = atomic ] || return
  done
}

# Whether some run of this many workers that do not scan is regular and not atomic, and each one before it is atomic.
races() {
  for count in $(seq "$most"); do
    run "$1"
    [ "$said" = atomic ] || break
  done
  [ "$said" = regular ]
}

# try KIND WORKERS: one test, by its name
try() {
  if "$1" "$2"; then
    passed=$((passed + 1))
    echo "scans: $2 workers, $1: passed, run $count was $said"
  else
    failed=$((failed + 1))
    echo "scans: $2 workers, $1: failed, run $count was $said"
  fi
}

try scans 3
try scans 4
try scans 8
try races 4
try races 8
if "$here/seeds.py" "$program"; then
  passed=$((passed + 1))
else
  failed=$((failed + 1))
fi

echo "$passed passed, $failed failed"
[ "$failed" = 0 ]
