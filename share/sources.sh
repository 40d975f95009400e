#!/bin/sh
# Writes one sum over the names and the texts of what the program is made of or promises: crates.txt, VERSION, and the code and the
# specs of each crate that it depends on. A changed proof, test or sweep does not change the program, and so not the sum.
# usage: sources.sh sum
unset CDPATH
export LC_ALL=C
cd -- "$(dirname -- "$0")/.." || exit 1
if [ "$*" != sum ]; then
  sed -n 's/^# usage: /usage: /p' share/sources.sh >&2
  exit 5
fi

crates=$(python3 -B share/crates.py snapjudge) || exit 1
set -- crates.txt VERSION
for crate in $crates; do
  for folder in "crates/$crate/src" "crates/$crate/specs"; do
    [ ! -d "$folder" ] || set -- "$@" "$folder"
  done
done
sum=$(find -L "$@" \( -path '*/src/tests' -o -path '*/src/tests.rt' \) -prune -o -type f -print0 | sort -z | xargs -0 sha256sum | sha256sum)
[ "${#sum}" -ge 64 ] && echo "${sum%% *}"
