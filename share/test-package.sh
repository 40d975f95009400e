#!/usr/bin/env bash
# Makes the packages twice, and the program and the library too, which must give the same bytes. Tries each package on a clean prefix
# without rt on the path: its checksums, the program and the examples, a caller in C, the recorders, the Python module, and that nothing
# is left once it is removed. The image is tried without a container, in a root that has its files alone. The last line is 'N passed,
# M failed', with ', K skipped' after it if something could not be tried; a line before it names that.
# usage: test-package.sh [--dist DIST] [WORD ..]    the words are those of package; with --dist the packages in DIST are tried
set -u
unset CDPATH
export LC_ALL=C
dist=
if [ "${1-}" = --dist ]; then
  dist=$(realpath -- "${2-}") || exit 1
  shift 2
fi
words=()
for word; do
  ! [ -e "$word" ] || word=$(realpath -- "$word")
  words+=("$word")
done
cd "$(dirname "${BASH_SOURCE[0]}")/.." || exit 1
top=$PWD
part=package
. share/lib.sh
version=$(cat VERSION)
folder=snapjudge-$version-x86_64
documents=share/doc/snapjudge

# A machine with these tools alone, with the home that is named, and nothing of where this runs.
mkdir "$room/tools"
for tool in cut gzip mkdir rm sh sha256sum tar xargs; do
  ln -s "$(type -P "$tool")" "$room/tools/$tool"
done
bare() {
  env -i HOME="$1" PATH="$room/tools" "${@:2}"
}

# Whether the checksums of a prefix are those of its files, and every file has one.
sums_hold() {
  (cd "$1" && sha256sum --quiet --strict -c "$documents/SHA256SUMS" &&
    diff <(cut -c 67- "$documents/SHA256SUMS" | sort) <(find . -type f ! -path "./$documents/SHA256SUMS" -printf '%P\n' | sort))
}

# Whether the prefix has the bytes of each file of a folder at a place.
has_all() {
  local file found=0
  while IFS= read -r file; do
    cmp "$1/$file" "$2/$file" || return 1
    found=$((found + 1))
  done <"$room/list"
  [ "$found" -gt 0 ]
}

# What ./install puts under a prefix, except for the program.
has_installed() {
  ./install "$room/installed" &&
    (cd "$room/installed" && find . -type f ! -path ./bin/snapjudge -printf '%P\n') >"$room/list" && has_all "$room/installed" "$1"
}

has_recorders() {
  (cd ffi/record && ls calls.sh worked.csv c/*.[ch] cpp/*pp java/*.java python/*.py rust/*.rs go/go.mod go/*.go go/*/*.go) >"$room/list" &&
    has_all ffi/record "$1/share/snapjudge/record"
}

# The pages and the examples, as they are here. The page with the sums of the packages has none of them there.
has_documents() {
  ls ./*.md LICENSE docs/*.md docs/*/*.md docs/pictures/* examples/*.* | grep -vx docs/INSTALL.md >"$room/list" && has_all . "$1/$documents" &&
    awk '/^```$/ { inside = 0 } !inside; /^```text sums$/ { inside = 1 }' docs/INSTALL.md | cmp - "$1/$documents/docs/INSTALL.md"
}

# Whether each link of the pages under a prefix leads to what is there too.
links_lead() (
  found=0
  cd "$1/$documents" || exit
  for page in *.md docs/*.md docs/*/*.md examples/README.md; do
    while IFS= read -r target; do
      [ -e "${page%"${page##*/}"}$target" ] || { echo "$page: $target leads nowhere" && exit 1; }
      found=$((found + 1))
    done < <(awk '/^ *```/ { inside = !inside } !inside' "$page" | grep -o '\](\([^()# ]*\)' | cut -c 3- | grep -v '^$\|^[a-z]*:')
  done
  [ "$found" -gt 100 ]
)

# Whether the program says what it is, and so does the file of who proved it.
says_its_version() {
  [ "$(bare "$room" "$1/bin/snapjudge" --version)" = "snapjudge $version" ] &&
    [ "$(head -n 1 "$1/$documents/PROVED")" = "snapjudge $version for x86-64-v2, proved with $(rt version)" ] &&
    [ "$(sed -n 's/^sources //p' "$1/$documents/PROVED")" = "$(share/sources.sh sum)" ]
}

# The exit status that belongs to an expected report.
status_of() {
  case "$(cat "$1")" in
    refused*) echo 3 ;;
    *"regular no"*) echo 2 ;;
    *"atomic no"*) echo 1 ;;
    *) echo 0 ;;
  esac
}

# judges PREFIX [SETTING]: whether the program judges each example, even if the C library hides what a later processor has
judges() {
  local history report status
  for history in "$top"/examples/*.csv; do
    report=${history%.csv}.report
    bare "$room" ${2+"$2"} "$1/bin/snapjudge" check "$history" >"$room/out"
    status=$?
    cmp "$room/out" "$report" && [ "$status" = "$(status_of "$report")" ] || return 1
  done
}

# Builds with the flags that pkg-config gives, runs with the shared library of the prefix, and does not start without it. Then
# it does so with the static one.
calls_from_c() {
  local flags libraries
  flags=$(PKG_CONFIG_LIBDIR=$1/lib/pkgconfig pkg-config --cflags snapjudge) || return
  libraries=$(PKG_CONFIG_LIBDIR=$1/lib/pkgconfig pkg-config --libs snapjudge) || return
  [ "$(PKG_CONFIG_LIBDIR=$1/lib/pkgconfig pkg-config --modversion snapjudge)" = "$version" ] || return
  (
    # beside its own header the caller would not take that of the prefix
    cp ffi/c/test_examples.c ffi/c/test_questions.h "$room" && cd "$room" || exit
    cc -std=c11 -O1 $flags -o shared test_examples.c $libraries -pthread &&
      LD_LIBRARY_PATH=$1/lib ./shared "$top"/examples/*.csv || exit
    env -u LD_LIBRARY_PATH ./shared "$top"/examples/*.csv
    [ $? = 127 ] || exit 1
    cc -std=c11 -O1 $flags -o static test_examples.c "$1/lib/libsnapjudge.a" -pthread && ./static "$top"/examples/*.csv
  )
}

# own PREFIX COMMAND ..: the right object of the recorders is atomic by what is under the prefix
own() {
  [[ $(env -u SNAPJUDGE_LIBRARY SNAPJUDGE_PROGRAM="$1/bin/snapjudge" "${@:2}" double --runs 5) == "double: atomic 5, only-regular 0, not-regular 0; "* ]]
}

records_in_c() {
  cc -std=gnu11 -O2 -o "$room/own" "$1/share/snapjudge/record/c/own.c" -pthread && (cd "$room" && own "$1" ./own)
}

records_in_python() {
  (cd "$room" && own "$1" python3 -B "$1/share/snapjudge/record/python/own.py")
}

has_pip() {
  python3 -m pip --version >/dev/null 2>&1 && return 0
  skip "the wheel" "pip is not here"
  return 1
}

# Installs the wheel where nothing else of these sources is, and judges each example by its module and by its program.
judges_in_python() {
  local history status bin=$room/venv/bin
  python3 -m venv --system-site-packages --without-pip "$room/venv" &&
    "$bin/python" -m pip install -q --no-index --disable-pip-version-check --root-user-action=ignore "$1" &&
    (cd "$room" && env -u SNAPJUDGE_LIBRARY "$bin/python" -B -c '
import snapjudge, sys
assert snapjudge.__file__.startswith(sys.argv[1]), snapjudge.__file__
assert snapjudge.__version__ == sys.argv[2], snapjudge.__version__
for name in sys.argv[3:]:
    with open(name, "rb") as text, open(name[:-4] + ".report") as wanted:
        assert snapjudge.report(text.read())[1] == wanted.read(), name
' "$room/venv" "$version" "$top"/examples/*.csv) || return
  for history in "$top"/examples/*.csv; do
    "$bin/snapjudge" check "$history" >"$room/out"
    status=$?
    cmp "$room/out" "${history%.csv}.report" && [ "$status" = "$(status_of "${history%.csv}.report")" ] || return
  done
}

# What else the wheel has: the recorder and its driver, whose runs its program judges, and two commands.
records_in_python_by_wheel() {
  local bin=$room/venv/bin
  (cd "$room" && PATH="$bin:$PATH" env -u SNAPJUDGE_PROGRAM -u SNAPJUDGE_LIBRARY "$bin/python" -B -W error -c '
import threading
from snapjudge import driver, recorder

class Locked:
    def __init__(self, components):
        self.lock, self.values = threading.Lock(), [0] * components
    def update(self, thread, component, value):
        driver.pause()
        with self.lock:
            self.values[component] = value
    def view(self, thread):
        with self.lock:
            driver.pause()
            return list(self.values)

assert recorder.Recorder(1, 1, 1).text() == "at,event,process,op,data\n"
driver.main({"locked": Locked})
' --runs 3 --views 1 && "$bin/snapjudge-merge-logs" "$top"/ffi/record/logs/*.log >merged.csv && cmp merged.csv "$top/ffi/record/logs/merged.csv" &&
    echo '{:type :invoke, :f :write, :value [:x 3], :process 0, :index 0}
{:type :ok, :f :write, :value [:x 3], :process 0, :index 1}
{:type :invoke, :f :read, :value [:x nil], :process 1, :index 2}
{:type :ok, :f :read, :value [:x nil], :process 1, :index 3}' >old.edn && "$bin/snapjudge-from-jepsen" --into jepsen old.edn &&
    "$bin/snapjudge" check --quiet jepsen/old.csv >old.report
  [ $? = 2 ])
}

# A python that has pytest.
with_pytest() {
  local python
  for python in python3 /usr/bin/python3; do
    "$python" -c 'import pytest' 2>/dev/null && echo "$python" && return 0
  done
  return 1
}

# judges_tests PYTHON: a right recording passes and a wrong history fails, with its sentences, a witness, and a page in the folder that is named
judges_tests() {
  rm -rf "$room/tested"
  python3 -m pip install -q --no-index --disable-pip-version-check --root-user-action=ignore --target "$room/tested" "$wheel" || return
  (cd "$room/tested" && cat >test_boards.py <<'PYTHON'
import pytest
from snapjudge.testing import NotAtomic, assert_atomic

TWO_WRITERS = "event,process,op,data\nbegin,0,update,0:1:5\nbegin,1,update,0:2:6\nend,0,update,\nend,1,update,\n"

def test_right(recording):
    recorder = recording(1, 1, 2)
    log = recorder.logs[0]
    log.begin_update(0, 7)
    log.end_update()
    log.begin_view()
    log.end_view_values([7])

def test_old(recording):
    recorder = recording(1, 1, 2)
    log = recorder.logs[0]
    log.begin_update(0, 7)
    log.end_update()
    log.begin_view()
    log.end_view_values([0])

def test_stale():
    assert_atomic(open(EXAMPLE), views=2)

def test_two_writers():
    with pytest.raises(NotAtomic, match="proximity: view 3 shows 0:1, though update 0:2 had ended"):
        assert_atomic(TWO_WRITERS + "begin,2,view,\nend,2,view,0:1:5\n", out="caught", name="two", writers="many")
    assert_atomic(TWO_WRITERS, views=0, writers="many")
PYTHON
  sed -i "s,EXAMPLE,'$top/examples/stale-view.csv'," test_boards.py
  env -u SNAPJUDGE_LIBRARY PYTHONPATH=. "$1" -B -m pytest -q --snapjudge-out caught test_boards.py >said
  [ $? = 1 ] && grep -q '^3 passed, 1 error\|1 failed, 3 passed, 1 error' said && grep -q 'proximity: view 2 shows 0:0, though update 0:1 had ended' said &&
    grep -q 'begin,0,update,0:1:7' said && [ -s caught/test_old.csv ] && grep -q '<svg' caught/test_old.html && grep -q '<svg' caught/two.html)
}

# What docs/INSTALL.md says to do: the lines after `$` of a block of a section, which a machine without rt runs in DIST.
write_script() {
  awk -v section="$1" -v block="$2" '
    /^##? / && !inside { here = $0 == "# " section || $0 == "## " section }
    /^```/ { inside = !inside; blocks += here && inside }
    here && inside && blocks == block && sub(/^\$ /, "")' docs/INSTALL.md >"$room/script"
  [ -s "$room/script" ]
}

runs_as_told() {
  write_script "$1" "$2" && (cd "$dist" && bare "$room/home" sh -eu "$room/script")
}

# Whether a folder has no file, nor a link, except for those of the dpkg of that root.
is_empty() {
  [ -d "$1" ] && [ -z "$(find "$1" -path "$1/var/lib/dpkg" -prune -o ! -type d -print)" ]
}

is_debian() {
  [ "$(dpkg-deb -f "$1" Package Version Architecture)" = "Package: snapjudge
Version: $version
Architecture: amd64" ]
}

# Installs by dpkg on a root of its own, whose list of packages is empty.
installs() {
  mkdir -p "$room/root/var/lib/dpkg/"{info,updates,triggers} && touch "$room/root/var/lib/dpkg/"{status,available} &&
    PATH=$PATH:/usr/sbin:/sbin dpkg --root="$room/root" --force-depends -i "$1"
}

removes() {
  [ -x "$room/root/usr/bin/snapjudge" ] && PATH=$PATH:/usr/sbin:/sbin dpkg --root="$room/root" -r snapjudge && is_empty "$room/root"
}

# The two packages have the same files, of the same bytes, except for the folder of what completes in zsh.
same_files() {
  diff <(sort "$1/$documents/SHA256SUMS") <(sed 's,/zsh/vendor-completions/,/zsh/site-functions/,' "$2/$documents/SHA256SUMS" | sort)
}

. share/own-root.sh
. share/same-bytes.sh

# What a machine has that has nothing: the C library, and the tools of bare.
has_own_root() {
  own_root=$room/alone
  mkdir -p "$own_root/home" "$own_root/dev" "$own_root/tmp" && : >"$own_root/dev/null" &&
    add_tools "$own_root" env cut gzip mkdir rm sh sha256sum tar xargs && can_change_root "$own_root"
}

# judges_by COMMAND ..: whether a command judges each example, which it reads on standard input
judges_by() {
  local history report status
  for history in "$top"/examples/*.csv; do
    report=${history%.csv}.report
    "$@" <"$history" >"$room/out"
    status=$?
    cmp "$room/out" "$report" && [ "$status" = "$(status_of "$report")" ] || return 1
  done
}

# judges_there PROGRAM: whether a program judges each example in that root
judges_there() {
  judges_by in_root "$own_root" "$1" check
}

# Does in that root what docs/INSTALL.md says, and tries the program, which finds its examples there.
installs_archive_there() {
  cp "$archive" "$dist/SHA256SUMS" "$own_root/home" && write_script "Install without Rattle" 1 && cp "$room/script" "$own_root/home/first" &&
    write_script "The archive" 1 && cp "$room/script" "$own_root/home/second" &&
    in_root "$own_root" /bin/sh -eu -c 'cd /home && . ./first && . ./second' && judges_there /home/.local/bin/snapjudge
}

# What the Debian package depends on is there: no more than the C library.
installs_deb_there() {
  dpkg-deb -x "$deb" "$own_root" && judges_there /usr/bin/snapjudge
}

# Python comes from here, and the module from the wheel alone.
judges_in_python_there() {
  python3 -m pip install -q --no-index --disable-pip-version-check --root-user-action=ignore --target "$own_root/module" "$wheel" &&
    add_python "$own_root" && mkdir -p "$own_root/examples" && cp "$top"/examples/*.csv "$top"/examples/*.report "$own_root/examples" &&
    in_root "$own_root" "$(cat "$own_root/python")" -B -c '
import glob, sys
sys.path.insert(0, "/module")
import snapjudge
names = glob.glob("/examples/*.csv")
assert len(names) > 5
for name in names:
    with open(name, "rb") as text, open(name[:-4] + ".report") as wanted:
        assert snapjudge.report(text.read())[1] == wanted.read(), name
'
}

# The image has the program of the archive, what that loads here, and an empty folder; and nothing else.
has_what_it_needs() {
  mkdir -p "$room/needed/usr/bin" "$room/needed/work" && cp "$prefix/bin/snapjudge" "$room/needed/usr/bin" &&
    add_libraries "$room/needed" "$prefix/bin/snapjudge" && diff -r "$room/needed" "$room/image" && [ -z "$(find "$room/image" -mindepth 1 ! -perm 755)" ]
}

# The labels of the image, by skopeo, which copies it as Docker and as Podman read it.
is_copied() {
  local form
  for form in "docker-archive:$image" "docker-archive:$image:snapjudge:$version" "oci-archive:$image:$version" "oci-archive:$image:latest"; do
    rm -rf "$room/copied" &&
      skopeo --insecure-policy copy -q "$form" "dir:$room/copied" && [ "$(skopeo --insecure-policy inspect --format "$1" "dir:$room/copied")" = "$2" ] || return
  done
}

# in_image WORD ..: runs the program of the image on these words, in a root that has the image alone
in_image() {
  env -i PATH="$PATH" "${changes_root[@]}" "$room/image" /usr/bin/snapjudge "$@"
}

# docker COMMAND ..: knows whether the file is there that is loaded, and runs the image in its own root; it takes no account of options
docker() {
  case $1 in
    load) [ -s "$3" ] ;;
    run)
      while [ $# -gt 0 ] && [ "$1" != snapjudge ]; do shift; done
      in_image "${@:2}"
      ;;
    *) return 1 ;;
  esac
}

# Loads and runs as docs/INSTALL.md tells.
runs_image_as_told() {
  mkdir "$room/told" && cp "$image" "$room/told" && cp examples/stale-view.csv "$room/told/run.csv" && write_script "The image" 1 || return
  (cd "$room/told" && . "$room/script") >"$room/out"
  [ $? = 2 ] && cmp "$room/out" examples/stale-view.report
}

# A caller's file is below the folder that the image has for it.
judges_in_its_folder() {
  cp "$top/examples/atomic-run.csv" "$room/image/work" && in_image check work/atomic-run.csv | cmp - "$top/examples/atomic-run.report"
}

# refuses STATUS REASON WORD ..: package ends with this status, says why, and leaves nothing
refuses() {
  ./package "${@:3}" "$room/none" 2>"$room/err"
  [ $? = "$1" ] && grep -qF -- "$2" "$room/err" && ! [ -e "$room/none" ]
}

# shows_help: the usage goes to standard output, and nothing is made
shows_help() {
  ./package --help >"$room/help" 2>"$room/err" && [ ! -s "$room/err" ] && ! [ -e "$room/none" ] &&
    [ "$(head -n 1 "$room/help")" = "usage: package [--help] [--sums] [--program FILE] [--library FOLDER] [DIST]" ]
}

# try_prefix NAME PREFIX: what was installed there
try_prefix() {
  try "$1: version and prover" says_its_version "$2"
  try "$1: the examples" judges "$2"
  try "$1: the examples on an older processor" judges "$2" GLIBC_TUNABLES=glibc.cpu.hwcaps=-AVX2,-AVX2_Usable
  try "$1: checksums" sums_hold "$2"
}

for tool in rt python3 find; do
  has "$tool" "all packages" && continue
  echo "0 passed, 1 failed"
  exit 1
done

printf '#!/bin/sh\nexit 127\n' >"$room/later"
chmod +x "$room/later"
try "a program for later processors" refuses 1 "does not run on every x86-64" "${words[@]}" --program "$room/later"
printf '#!/bin/sh\necho snapjudge 9\n' >"$room/other"
chmod +x "$room/other"
try "a program of another version" refuses 1 "its program is snapjudge 9, and VERSION has $version" "${words[@]}" --program "$room/other"
try "a word that is none" refuses 5 "usage: package" "${words[@]}" --words
try "its help" shows_help
try "two folders" refuses 5 "usage: package" "${words[@]}" "$room/else"

mkdir "$room/first" "$room/second"
if [ -z "$dist" ]; then
  try "a package" make "$room/first" 022 UTC 1 C
  dist=$room/first/made
fi
try "a package once more" make "$room/second" 077 Asia/Tokyo 2 C.UTF-8
try "the same bytes" same "$room/second/made" "$dist"
archive=$dist/$folder.tar.gz
deb=$dist/snapjudge_${version}_amd64.deb
wheel=$(echo "$dist/snapjudge-$version"-py3-none-manylinux_*_x86_64.whl)
image=$dist/snapjudge-$version-image.tar

mkdir "$room/home"
prefix=$room/home/.local
try "checksums of the packages" runs_as_told "Install without Rattle" 1
try "each package has its checksum" diff <(cut -c 67- "$dist/SHA256SUMS") <(cd "$dist" && ls -- *.deb *.tar *.tar.gz *.whl | sort)
try "archive: installed as docs/INSTALL.md tells" runs_as_told "The archive" 1
try_prefix archive "$prefix"
try "archive: the day of the release" has_its_day
try "archive: what ./install installs" has_installed "$prefix"
try "archive: recorders" has_recorders "$prefix"
try "archive: documents" has_documents "$prefix"
try "archive: links of its pages" links_lead "$prefix"
has cc "C" && has pkg-config "C" && try "archive: C" calls_from_c "$prefix"
has cc "the recorder in C" && try "archive: the recorder in C" records_in_c "$prefix"
try "archive: the recorder in Python" records_in_python "$prefix"
try "archive: the wheel" cmp "$wheel" "$prefix/share/snapjudge/${wheel##*/}"
if has_pip; then
  try "the wheel" judges_in_python "$wheel"
  try "the wheel: the recorder, its driver and the commands" records_in_python_by_wheel
  if python=$(with_pytest); then
    try "the wheel: tests by pytest" judges_tests "$python"
  else
    skip "the wheel: tests by pytest" "pytest is not here"
  fi
fi

if has dpkg-deb "the Debian package"; then
  try "Debian: its fields" is_debian "$deb"
  try "Debian: unpacked" dpkg-deb -x "$deb" "$room/unpacked"
  try_prefix Debian "$room/unpacked/usr"
  try "Debian: the files of the archive" same_files "$prefix" "$room/unpacked/usr"
fi
if has dpkg "dpkg -i" && { [ "$(id -u)" = 0 ] || { skip "dpkg -i" "which takes root"; false; }; }; then
  try "dpkg -i" installs "$deb"
  try "dpkg -i: the examples" judges "$room/root/usr"
  try "dpkg -r" removes
fi

mkdir "$room/image"
try "image: its form" share/test-image.py "$image" "$version" "$(sed -n 's/^date-released: //p' CITATION.cff)" "$prefix/$documents/PROVED" "$room/image"
try "image: what the program needs, and no more" has_what_it_needs
if has skopeo "the image by skopeo"; then
  try "image: by skopeo" is_copied '{{.Architecture}} {{.Os}} {{index .Labels "org.opencontainers.image.version"}}' "amd64 linux $version"
fi

try "the same bytes, in another folder" packed_elsewhere
try "sums that are kept, and compared" keeps_sums
try_kept_sums
try "the same program, compiled in another folder" same_program
try "the same library, compiled in another folder" same_library
if has_own_root; then
  try "archive: in a root of its own" installs_archive_there
  has dpkg-deb "the Debian package in a root of its own" && try "Debian: in a root of its own" installs_deb_there
  has_pip && try "the wheel in a root of its own" judges_in_python_there
  try "image: its version, in a root of its own" eval '[ "$(in_image --version)" = "snapjudge $version" ]'
  try "image: the examples, in a root of its own" judges_by in_image check -
  try "image: a file, in a root of its own" judges_in_its_folder
  try "image: as docs/INSTALL.md tells" runs_image_as_told
else
  skip "each package in a root of its own" "which this user may not change here"
fi

try "archive: removed as docs/INSTALL.md tells" runs_as_told "The archive" 2
try "archive: nothing is left" is_empty "$prefix"

end_tests
