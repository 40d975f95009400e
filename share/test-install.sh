# The installation, and the words of the build. share/test.sh reads this file: it works in the room there, with its functions and its files.

on_path="
To find it by name, put $room/pre fix/bin on your PATH.
"
expect "an installation" 0 "snapjudge is installed as $room/pre fix/bin/snapjudge$on_path" "$top/install" "pre fix"
expect "the installed program" 2 "$stale" "pre fix/bin/snapjudge" check "$examples/stale-view.csv"
expect "it needs no other file" 2 "$stale" env -i PATH=/nowhere "pre fix/bin/snapjudge" check "$examples/stale-view.csv"
expect "its version" 0 "snapjudge $version
" "pre fix/bin/snapjudge" --version
if has pkg-config "the library by pkg-config" && has cc "the library by pkg-config"; then
  expect "the library by what pkg-config tells" 0 "" sh -c 'flags=$(PKG_CONFIG_LIBDIR="$1/lib/pkgconfig" pkg-config --cflags --libs snapjudge) &&
    cp "$2/ffi/c/test_examples.c" "$2/ffi/c/test_questions.h" . && eval "cc -o caller test_examples.c $flags -pthread" &&
    LD_LIBRARY_PATH="$1/lib" ./caller "$2"/examples/*.csv >&2' sh "$room/pre fix" "$top"
  expect "the version that it tells" 0 "$version
" env PKG_CONFIG_LIBDIR="$room/pre fix/lib/pkgconfig" pkg-config --modversion snapjudge
fi
mkdir tools
for tool in rt flock dirname mkdir cp chmod mv cat sh find cmp readlink sed rm head sort xargs sha256sum mktemp awk touch; do
  ln -s "$(command -v "$tool")" tools
done
# the command may be a script, which needs more tools
ln -s "$(python3 -c 'import os, sys; print(os.path.realpath(sys.executable))')" tools/python3
expect "an installation without a compiler" 0 "snapjudge is installed as $room/bare/bin/snapjudge
To find it by name, put $room/bare/bin on your PATH.
" env PATH="$room/tools" "$top/install" bare
expect_said "what is left out" "snapjudge: there is no cc, so the library is left out"
expect "what is there of the library" 0 "" find bare -name 'libsnapjudge*' -o -name 'snapjudge.[hp]*'
expect "a full disk" 1 "" sh -c 'ulimit -f 500; "$1" "pre fix" 2>/dev/null' sh "$top/install"
expect "the program that was there" 2 "$stale" "pre fix/bin/snapjudge" check "$examples/stale-view.csv"
expect "what it left by halves" 0 "" find "pre fix" -name '*.new'
mkdir stopped
printf '#!/bin/sh\n"%s" "$@" && kill -TERM "$PPID"\n' "$room/tools/cp" >stopped/cp
chmod +x stopped/cp
expect "an installation that is interrupted" 130 "" env PATH="$room/stopped:$room/tools" "$top/install" "pre fix"
expect "what that left by halves" 0 "" find "pre fix" -name '*.new'
expect "no output for what it says" 1 "" sh -c '"$1" "pre fix" >/dev/full' sh "$top/install"
mkdir -p "pre fix/share/fish/mine"
rm "pre fix/share/man/man1/snapjudge.1"
expect "a removal of what is not all there" 0 "snapjudge is no more under $room/pre fix
" "$top/install" --remove "pre fix"
expect_said "what is missing" "snapjudge: these were not under $room/pre fix: share/man/man1/snapjudge.1"
expect "what is left of it" 0 "" find "pre fix" -type f
expect "the folders of others that are left" 0 "pre fix/share/fish
pre fix/share/fish/mine
" find "pre fix" -mindepth 2
expect "the folders of the prefix itself" 0 "" sh -c 'ls -d "$1/bin" "$1/share" >&2' sh "pre fix"
expect "a removal of what is not there" 1 "" "$top/install" --remove "pre fix"
expect_said "the reason" "snapjudge: nothing of it was under $room/pre fix"
mkdir "pre fix/bin/snapjudge"
expect "a folder in its place" 1 "" "$top/install" "pre fix"
expect_said "the reason" "snapjudge: $room/pre fix/bin/snapjudge is a directory; nothing is installed"
expect "what is there of it" 0 "" find "pre fix" -type f
expect "a removal of a folder in its place" 1 "" "$top/install" --remove "pre fix"
expect "a full disk, and nothing there" 1 "" sh -c 'ulimit -f 1500; "$1" new 2>/dev/null' sh "$top/install"
expect "what is there of it" 0 "" find new -type f
library=$(cksum <"$top/ffi/build/libsnapjudge.a")
expect "a disk too full for the library" 1 "" sh -c 'ulimit -f 8; "$1" newer 2>/dev/null' sh "$top/install"
expect "the library that was there" 0 "$library
" sh -c 'cksum <"$1"' sh "$top/ffi/build/libsnapjudge.a"
expect "what it left by halves" 0 "" find "$top/ffi/build" -name '*.new'
installs="usage: install [--help] [--remove] [PREFIX]
  --remove  takes away what an installation has put under PREFIX
  PREFIX    the folder to install under, ~/.local if none is given"
expect "the help of an installation" 0 "$installs
" "$top/install" --help
expect_said "nothing more" ""
for words in "''" "--remove ''" "a b" "--prefix"; do
  expect "the words $words" 5 "" sh -c "\"\$1\" $words" sh "$top/install"
  expect_said "the usage" "$installs"
done
expect "neither a prefix nor a home" 1 "" env -u HOME "$top/install"
expect_said "the reason" "snapjudge: HOME is not set: name a PREFIX"

usage="usage: build [--help] [--keep] [--built BEGUN] [--times FILE]
  --keep    leaves the checked proofs too, which \`rt check\` and \`rt lib\` work over; a first build takes longer so
  --built   builds anew, and takes the libraries that a gate has proved since the file BEGUN
  --times   writes the seconds and the memory of each crate that was proved
"
expect "the help of the build" 0 "$usage" "$top/build" --help
expect_said "nothing more" ""
expect "another option of the build" 70 "" "$top/build" --keep --nope
expect_said "the usage and the reason" "${usage}snapjudge: the build failed: there is no option --nope"
