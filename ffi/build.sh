#!/usr/bin/env bash
# Proves and builds the judge as libsnapjudge.a and libsnapjudge.so, in the folder that is named or in ffi/build. One object
# is made of the library and of the kit's few lines over malloc, and of its names only the calls of the header are seen.
# usage: build.sh [--built BEGUN] [FOLDER]; with --built it takes the libraries that a gate has proved since the file BEGUN
unset CDPATH
set -eu
top=$(cd "$(dirname "${BASH_SOURCE[0]}")/.." && pwd)
begun=
if [ "${1-}" = --built ]; then
  begun=$(realpath "$2")
  shift 2
fi
case $# in
  0 | 1) ;;
  *) set -- - ;;
esac
case ${1-} in
  -h | --help)
    sed -n 's/^# usage: /usage: /p' "$0"
    exit 0
    ;;
  -*)
    sed -n 's/^# usage: /usage: /p' "$0" >&2
    exit 5
    ;;
esac
out=${1:-$top/ffi/build}
kit=$(dirname "$(dirname "$(readlink -f "$(command -v rt)")")")
mkdir -p "$out"
out=$(cd "$out" && pwd)
work=$(mktemp -d)
trap 'rm -rf "$work" "$out"/libsnapjudge.*.new' EXIT

. "$top/share/heed.sh"
# proves snap_c, and below it what is not proved already; how far it is goes to standard error
if ! heed python3 -B "$top/share/prove.py" ${begun:+--built "$begun"} snap_c >"$work/log"; then
  tail -n 20 "$work/log" >&2
  exit 1
fi

cd "$work"
ar x "$top/crates/snap_c/out/libsnap_c.a"
ar x "$kit/c/liblibc_c.a"
ld -r -o judge.o ./*.o
sed -n 's/^uint32_t \(snapjudge_[a-z_]*\)(.*/\1/p' "$top/ffi/c/snapjudge.h" >calls
objcopy --keep-global-symbols=calls judge.o
# both are built before one takes its place, so that a full disk leaves what there was
ar rcsD libsnapjudge.a judge.o
cc -shared -Wl,-soname,libsnapjudge.so -Wl,-z,noexecstack -o libsnapjudge.so judge.o
for library in libsnapjudge.a libsnapjudge.so; do cp "$library" "$out/$library.new"; done
for library in libsnapjudge.a libsnapjudge.so; do mv -f "$out/$library.new" "$out/$library"; done
echo "built $out/libsnapjudge.a and $out/libsnapjudge.so"
