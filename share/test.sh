#!/bin/sh
# Tries the launcher, the build, the installation and the completions over the program in built/. The last line is 'N passed,
# M failed, K skipped'; a line before it names what was skipped, since a tool is not here.
unset CDPATH
set -u
top=$(cd "$(dirname "$0")/.." && pwd)
examples=$top/examples
part=launcher
. "$top/share/lib.sh"

# The report of an example, each line after a front, with its last newline, which a substitution would drop, before a dot.
report_of() {
  sed "s/^/$2/" "$examples/$1.report"
  printf .
}
stale=$(report_of stale-view '')
stale=${stale%.}
inversion=$(report_of new-old-inversion '')
inversion=${inversion%.}
named_inversion=$(report_of new-old-inversion 'old.csv: ')
named_inversion=${named_inversion%.}
named_stale=$(report_of stale-view 'a b.csv: ')
named_stale=${named_stale%.}

ln -s "$top/snapjudge" "$room/first"
ln -s first "$room/second"
cd "$room" || exit 1

# Each of these tries a subject, in this room, and over what those before it have left there.
for subject in files names devices answers sums judges install complete builds signals; do
  . "$top/share/test-$subject.sh"
done
end_tests
