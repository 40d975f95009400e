#!/usr/bin/env bash
# Refuses the program memory, threads and devices in turn, and gives it awkward texts. Refuses each public call that takes
# memory the same, if the crate snap_sweep is built. The last line is 'N passed, M failed', with ', K skipped' after it if
# something is missing, which a line before it names.
# usage: test.sh [PROGRAM], the program itself and not its launcher; it is built/snapjudge by default
case ${1-} in
  -h | --help)
    sed -n '2,/^[^#]/ s/^# \{0,1\}//p' "$0"
    exit 0
    ;;
esac
unset CDPATH
set -u
here=$(cd "$(dirname "${BASH_SOURCE[0]}")" && pwd)
program=$(realpath -m "${1:-$here/../built/snapjudge}")
for tool in cc python3; do
  if ! command -v $tool >/dev/null; then
    echo "skipped: the sweep, $tool is not here"
    echo "0 passed, 0 failed, 1 skipped"
    exit 0
  fi
done
if ! [ -x "$program" ]; then
  echo "sweep: there is no program $program"
  echo "0 passed, 1 failed"
  exit 1
fi
work=$(mktemp -d)
trap 'rm -rf "$work"' EXIT
cc -O2 -Wall -Wextra -shared -fPIC -o "$work/refuse.so" "$here/refuse.c" || exit 1
calls=$here/../crates/snap_sweep/out/snap_sweep
[ -x "$calls" ] || calls=
python3 -B "$here/sweep.py" "$work/refuse.so" "$program" ${calls:+"$calls"}
