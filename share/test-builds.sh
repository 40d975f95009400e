# What the launcher builds, and when. share/test.sh reads this file: it works in the room there, with its functions and its files.

# The C library can hide what a processor has.
if grep -q x86-64-v3 "$top/built/snapjudge.version"; then
  expect "a processor that lacks something" 127 "" env GLIBC_TUNABLES=glibc.cpu.hwcaps=-AVX2,-AVX2_Usable "$top/snapjudge" check "$examples/stale-view.csv"
fi

# A tree of one crate, with a prover that does what the file `answer` says, and says when it is at work.
mkdir -p tree/share tree/crates/snapjudge/src/tests tree/crates/snapjudge/specs tree/crates/snapjudge/proofs tree/crates/snap_sweep/src bin
cp "$top/snapjudge" "$top/build" tree
cp "$top/share/sources.sh" "$top/share/crates.py" "$top/share/library.sh" "$top/share/heed.sh" tree/share
mkdir -p tree/ffi
cat >tree/ffi/build.sh <<'SH'
#!/bin/sh
[ "$(cat "$ANSWER")" != "proved, and not linked" ] || { echo "ld: no room"; exit 1; }
echo >>linked
SH
chmod +x tree/ffi/build.sh
printf 'snapjudge:\nsnap_sweep: snapjudge\n' >tree/crates.txt
echo 0 >tree/VERSION
main=tree/crates/snapjudge/src/main.rt
echo old >$main
printf '#!/bin/sh\necho a prover\n' >bin/rt
cat >tree/share/prove.py <<'PY'
import os, sys, time

with open(os.environ["ANSWER"]) as file:
    answer = file.read().strip()
with open(os.environ["ANSWER"] + ".pid", "w") as file:
    file.write(str(os.getpid()))
print("at work", file=sys.stderr, flush=True)
while os.path.exists(os.environ["ANSWER"] + ".wait"):
    time.sleep(0.02)
if answer == "refused":
    print("not proved: main")
    sys.exit(1)
with open("crates/snapjudge/src/main.rt") as file:
    text = file.read().strip()
with open("beside", "w") as beside:
    beside.write(" ".join(sys.argv[1:-1]) + "\n")
with open("VERSION") as file:
    version = file.read().strip() if answer != "proved, with another version" else "9"
status = 127 if answer == "proved, on an older processor" and "--cpu=x86-64-v3" in sys.argv else 0
os.makedirs("crates/snapjudge/out", exist_ok=True)
with open("crates/snapjudge/out/snapjudge", "w") as program:
    program.write(f'#!/bin/sh\n[ "$1" != --version ] || {{ echo snapjudge {version}; exit {status}; }}\necho {text}\n')
os.chmod("crates/snapjudge/out/snapjudge", 0o755)
PY
chmod +x bin/rt
export ANSWER="$room/answer"
export PATH="$room/bin:$PATH"
echo proved >answer

# Expects that a call builds first, and then runs the program of this name; or that it runs it as it is.
builds() {
  expect "$1" 0 "$2
" "${3-tree}/snapjudge" check
  expect_said "$1 is built" "at work"
}
runs() {
  expect "$1" 0 "$2
" "${3-tree}/snapjudge" check
  expect_said "$1 is not built" ""
}
builds "a first call" old
runs "a second call" old
mkdir finds
ln -s "$(command -v find)" finds
expect "where nothing is found but find" 0 "old
" env PATH="$room/finds" tree/snapjudge check
! command -v bash >/dev/null || expect "and by another shell" 0 "old
" env PATH="$room/finds" "$(command -v bash)" tree/snapjudge check
expect "the library is proved in the same run" 0 "--beside snap_c snapjudge
" cat tree/beside
expect "and is linked once" 0 "
" cat tree/linked
expect "the processors that it is for" 0 "snapjudge 0 for x86-64-v3, proved with a prover
" cat tree/built/snapjudge.version

# what changes the program, whatever its times say
cp -a tree/crates saved
echo new >$main
echo refused >answer
for call in first second; do
  expect "an edit that does not build, $call call" 70 "" tree/snapjudge check
  expect_said "the reason" "at work
snapjudge: the build failed: not proved: main"
done
echo proved >answer
builds "the edit, once it builds" new
rm -r tree/crates
cp -a saved tree/crates
builds "sources of before, with their times" old
tar cf saved.tar -C tree crates
echo new >$main
builds "an edit" new
tar xf saved.tar -C tree
builds "sources of before, out of an archive" old
touch -r $main time
echo new >$main
touch -r time $main
builds "an edit of the same size and time" new
if has rsync "sources by rsync"; then
  rsync -a saved/ tree/crates
  runs "rsync that finds the same size and time" new
  echo newer >$main
  builds "another edit" newer
  rsync -a saved/ tree/crates
  builds "sources of before, by rsync" old
  echo new >$main
  builds "an edit" new
fi
echo old >$main
touch -d 2001-01-01 $main
builds "an edit by a clock that went back" old
for file in src/more.rt specs/More.antt "src/a b's.rt" 'src/$HOME*\c.rt' src/below/more.rt "src/a
b.rt"; do
  mkdir -p "tree/crates/snapjudge/${file%/*}"
  touch "tree/crates/snapjudge/$file"
  builds "one file more, $file" old
  runs "and once more, $file" old
  echo more >"tree/crates/snapjudge/$file"
  builds "an edit of it, $file" old
  rm "tree/crates/snapjudge/$file"
  builds "one file less, $file" old
done
below=tree/crates/snapjudge/src/below
echo one >$below/one.rt
builds "a file in a folder that was empty" old
touch -r $below time
echo two >$below/two.rt
touch -r time $below
builds "one more in it, with the time of before" old
mv $below/one.rt one.rt
mv $below/two.rt $below/one.rt
mv one.rt $below/two.rt
builds "two names change places" old
touch -r $below/one.rt time
echo six >one.rt
touch -r time one.rt
mv one.rt $below/one.rt
builds "another file of the same size and time in its place" old
mv $below tree/crates/snapjudge/src/beneath
builds "another name of the folder" old
rm -r tree/crates/snapjudge/src/beneath
builds "the folder is gone" old
cp tree/share/sources.sh saved.sh
sed -i 's,folder in ,&"crates/$crate/proofs" ,' tree/share/sources.sh
echo proof >tree/crates/snapjudge/proofs/Main.antt
builds "another rule of what the sources are" old
cp saved.sh tree/share/sources.sh
builds "the rule of before" old
echo new >$main
builds "an edit" new
echo old >$main
builds "an edit" old
mkdir elsewhere
echo linked >elsewhere/linked.rt
ln -s ../../../../elsewhere/linked.rt tree/crates/snapjudge/src/linked.rt
builds "a link to a file" old
echo more >elsewhere/linked.rt
builds "an edit of what it leads to" old
rm tree/crates/snapjudge/src/linked.rt
builds "the link is gone" old
echo 1 >tree/VERSION
builds "another version" old
printf 'snapjudge: snap_core\nsnap_core:\n' >tree/crates.txt
mkdir -p tree/crates/snap_core/src
echo core >tree/crates/snap_core/src/lib.rt
builds "a crate below" old
echo more >>tree/crates/snap_core/src/lib.rt
builds "an edit of the crate below" old
mkdir tree/crates/snap_core/specs
echo first >tree/crates/snap_core/specs/Lib.antt
builds "the first definition of the crate below" old
mv tree/crates/snap_core/specs/Lib.antt tree/crates/snap_core/specs/Core.antt
builds "another name of it" old
rm tree/built/sources
builds "a program of which no source is known" old
: >tree/built/sources
builds "a program whose sources were not written" old
touch -d 2001-01-01 tree/built/sources
runs "a program whose sum is older than its sources" old
expect "the sum is as young as they are" 0 "" test tree/built/sources -nt $main

# what does not
touch $main tree/VERSION
runs "a file with another time" old
before=$(cat tree/built/sources)
cp -r tree "a tree"
touch -d 2001-01-01 tree/built/sources "a tree/built/sources"
runs "a copy" old "a tree"
expect "its sum is younger" 0 "" test "a tree/built/sources" -nt tree/built/sources
expect "and no file beside it" 0 "" find "a tree/built" tree/built -name 'sources.*'
expect "the sum of both" 0 "$before
$before
" cat tree/built/sources "a tree/built/sources"
for file in crates/snapjudge/src/tests/jobs.rt crates/snapjudge/src/tests.rt crates/snapjudge/proofs/Main.antt crates/snap_sweep/src/main.rt test; do
  echo more >>tree/$file
  runs "a change of $file" old
done
mkdir -p elsewhere
cp -r tree elsewhere/tree
echo other >elsewhere/$main
export CDPATH="$room/elsewhere"
runs "another tree that cd would find" old
echo new >$main
builds "an edit beside it" new
unset CDPATH

echo old >$main
echo "proved, and not linked" >answer
expect "a library that is not linked" 0 "old
" tree/snapjudge check
expect_said "the reason" "at work
snapjudge: the library was not built: ld: no room"
runs "the program beside it" old
echo proved >answer
echo new >$main
rm tree/linked
ln -sf "$room/bin/rt" "$(command -v tail)" tools
expect "a build without a compiler" 0 "new
" env PATH="$room/tools" tree/snapjudge check
expect_said "what is left out" "snapjudge: there is no cc, so the library is left out
at work"
expect "the program alone is proved" 0 "snapjudge
" cat tree/beside
expect "and nothing is linked" 1 "" test -e tree/linked
mv tree/share/sources.sh saved.sh
expect "a checkout without share/sources.sh" 70 "" tree/snapjudge check
mv saved.sh tree/share/sources.sh

echo old >$main
echo "proved, on an older processor" >answer
expect "an older processor" 0 "old
" tree/snapjudge check
expect_said "both kinds are proved" "at work
at work"
expect "the processors that it is for" 0 "snapjudge 1 for x86-64-v2, proved with a prover
" cat tree/built/snapjudge.version
echo "proved, with another version" >answer
echo new >$main
expect "a program of another version" 70 "" tree/snapjudge check
expect_said "the reason" "at work
snapjudge: the build failed: the program is built as snapjudge 9, and VERSION has 1"
echo proved >answer

# Waits until a file has a line, for at most two minutes.
await() {
  for turn in $(seq 2400); do
    ! grep -q "$1" "$2" 2>/dev/null || return 0
    sleep 0.05
  done
}
# Builds twice at once: the first prover ends when the second build has said that it waits. The second takes what the first left,
# or proves by the answer that is named.
build_twice() {
  rm -f one.err two.err
  touch answer.wait
  tree/snapjudge check >one 2>one.err &
  one=$!
  await "at work" one.err
  echo "${1-refused}" >answer
  tree/snapjudge check >two 2>two.err &
  two=$!
  await waiting two.err
  rm answer.wait
  wait "$one"
  one=$?
  wait "$two"
  codes="$one $?"
  echo proved >answer
}
waits="snapjudge: another build is under way; waiting for it"
build_twice
expect "two builds at once" 0 "0 0
new
new
at work
$waits
" sh -c 'echo "$1"; cat one two one.err two.err' sh "$codes"
echo old >$main
echo refused >answer
build_twice proved
expect "two builds at once, and the first fails" 0 "70 0
old
at work
snapjudge: the build failed: not proved: main
$waits
at work
" sh -c 'echo "$1"; cat one two one.err two.err' sh "$codes"
echo new >$main
rm -f one.err
touch answer.wait
tree/build >one 2>one.err &
one=$!
await "at work" one.err
kill "$one"
wait "$one"
codes=$?
rm answer.wait
expect "a build that is ended" 0 "70
at work
snapjudge: the build failed: it was interrupted
" sh -c 'echo "$1"; cat one one.err' sh "$codes"
builds "a build after it" new

for closed in '<&-' '2>&-' '<&- 2>&-'; do
  echo "${#closed}" >$main
  expect "a build, and $closed" 0 "${#closed}
" sh -c "tree/snapjudge check $closed"
  runs "the program" "${#closed}"
done
echo old >$main
expect "a build, and no output" 0 "" sh -c 'tree/snapjudge check >&- || :'
runs "the program" old

echo new >$main
expect "an edit, with no prover on the path" 70 "" env PATH=/usr/bin:/bin tree/snapjudge check
echo old >$main
rm tree/built/snapjudge
mkdir tree/built/snapjudge
expect "a folder in the program's place" 4 "" env ended=0 tree/snapjudge check
rmdir tree/built/snapjudge
