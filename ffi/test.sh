#!/usr/bin/env bash
# Builds the library and tries it from C, C++, Rust, Go and Python on the examples, with little room, with refused memory and from
# eight threads on small stacks. The last line is 'N passed, M failed', with ', K skipped' after it where a tool is missing; a line
# before it names the language.
# usage: test.sh [--built BEGUN], as build.sh
unset CDPATH
set -u
part=ffi
. "$(dirname "${BASH_SOURCE[0]}")/../share/lib.sh"
cd "$(dirname "${BASH_SOURCE[0]}")" || exit 1
build=$PWD/build

has_pip() {
  python3 -m pip --version >/dev/null 2>&1 && return 0
  skip "Python by pip" "pip is not here"
  return 1
}

# compiled COMPILER FLAGS: the tests in C or C++, with the static and the shared library
compiled() {
  local flags="-Ic -O2 -Wall -Wextra -pedantic"
  local wrapped=-Wl,--wrap=malloc,--wrap=realloc,--wrap=free
  $1 $2 $flags -o "$build/test_static" c/test_examples.c -x none "$build/libsnapjudge.a" -pthread &&
    "$build/test_static" ../examples/*.csv &&
    $1 $2 $flags -o "$build/test_shared" c/test_examples.c -x none -L"$build" -lsnapjudge -Wl,-rpath,"$build" -pthread &&
    "$build/test_shared" ../examples/*.csv &&
    $1 $2 $flags -Wno-unused -o "$build/test_memory" c/test_memory.c -x none "$build/libsnapjudge.a" $wrapped &&
    "$build/test_memory"
}

# only the calls are seen
names() {
  local calls="snapjudge_check snapjudge_check_limit snapjudge_draw snapjudge_draw_calls snapjudge_explain snapjudge_explain_faults snapjudge_json snapjudge_shrink snapjudge_stats snapjudge_version"
  [ "$(nm --defined-only -g --format=just-symbols "$build/libsnapjudge.a" | grep -v ':$' | sort | xargs)" = "$calls" ] &&
    [ "$(nm -D --defined-only --format=just-symbols "$build/libsnapjudge.so" | grep '^snapjudge' | sort | xargs)" = "$calls" ]
}

# What the program answers to each question on each example, in the folder that is named: its status and what it writes.
by_program() {
  local example question words status
  rm -rf "$1" && mkdir -p "$1" || return 1
  for example in ../examples/*.csv; do
    for question in "check" "explain" "explain --draw" "explain --all" "explain --all --draw" "check --format json" "shrink" "shrink --draw" \
      "draw" "draw --svg" "draw --text" "draw --light" "draw --dark" "draw --svg --dark" "draw --svg --calls 5 --from 2" "stats" "stats --format json" \
      "shrink --map" "explain --faults 3" "explain --all --faults 3"; do
      read -ra words <<<"$question"
      case $question in
        check*json)
          question=json
          words+=("$example")
          ;;
        *json) question=stats--json ;;
      esac
      ../built/snapjudge "${words[@]}" <"$example" >"$1/answer" 2>/dev/null
      status=$?
      { printf %s $status && cat "$1/answer"; } >"$1/$(basename "$example").${question// /}"
    done
  done
}

# answers COMPILER FLAGS: each call on each example, with the static library, beside the program
answers() {
  $1 $2 -Ic -O2 -Wall -Wextra -pedantic -o "$build/test_answers" c/test_answers.c -x none "$build/libsnapjudge.a" -pthread &&
    "$build/test_answers" "$build/answers" ../examples/*.csv
}

# the values of the C++ header, with the static library, and its driver
values() {
  local flags="-std=c++17 -Ic -Icpp -O2 -Wall -Wextra -pedantic"
  c++ $flags -o "$build/test_cpp" cpp/test_cpp.cpp "$build/libsnapjudge.a" && "$build/test_cpp" &&
    c++ $flags -o "$build/driver_cpp" cpp/answers.cpp "$build/libsnapjudge.a"
}

# generated and damaged texts through each call and each command, and through the drivers that are built
damaged() {
  local drivers=()
  for driver in "$build"/driver_*; do
    [ -x "$driver" ] && drivers+=("$driver")
  done
  SNAPJUDGE_LIBRARY=$build/libsnapjudge.so python3 -B differential.py 2000 1600 1 "${drivers[@]}"
}

# the crate, its examples, and its driver
rust() {
  (cd rust/snapjudge && SNAPJUDGE_LIB=$build CARGO_TARGET_DIR=$build/target cargo test --offline -q) &&
    cp "$build/target/debug/examples/answers" "$build/driver_rust"
}

# the package, its examples, and its driver; Go does not see that the library has changed
go_package() {
  local -x GOCACHE=$build/target/go-build GOPROXY=off
  (cd go && go vet ./... && [ -z "$(gofmt -l .)" ] && go test -count=1 ./... &&
    go build -buildvcs=false -o "$build/driver_go" ./internal/answers)
}

# the package alone, as `go get` copies it
go_outside() {
  local -x GOCACHE=$build/target/go-build GOPROXY=off CGO_CFLAGS=-I$PWD/c CGO_LDFLAGS=-L$build
  cp -r go "$room/go" && (cd "$room/go" && go build -o "$room/outside" ./internal/answers) && "$room/outside" </dev/null
}

python() {
  (cd python && SNAPJUDGE_LIBRARY=$build/libsnapjudge.so python3 -B -m unittest -q test_snapjudge)
}

# Python with Dask, which Debian has for its own Python alone
dask() {
  local python
  for python in python3 /usr/bin/python3; do
    "$python" -c 'import distributed' 2>/dev/null && echo "$python" && return 0
  done
  return 1
}

# the lesson that is a notebook, by a kernel too where one is installed
lesson() {
  (cd python && SNAPJUDGE_LIBRARY=$build/libsnapjudge.so python3 -B -m unittest -q test_lesson)
}

# many recordings, by this Python
many() {
  (cd python && SNAPJUDGE_LIBRARY=$build/libsnapjudge.so "$1" -B -m unittest -q test_cluster)
}

# one long recording, window by window
windows() {
  (cd python && SNAPJUDGE_LIBRARY=$build/libsnapjudge.so python3 -B -m unittest -q test_follow)
}

# the same windows by the program
program_windows() {
  (cd python && SNAPJUDGE_PROGRAM=$1 SNAPJUDGE_LIBRARY=$build/libsnapjudge.so python3 -B -m unittest -q test_follow_program)
}

# what pip makes of the folder, without a network
installed() {
  rm -rf "$build/installed"
  python3 -m pip install -q --no-index --disable-pip-version-check --root-user-action=ignore --target "$build/installed" ./python &&
    (cd "$build" && env -u SNAPJUDGE_LIBRARY PYTHONPATH="$build/installed" python3 -B -c '
import snapjudge, sys
assert snapjudge.__file__.startswith(sys.argv[1]), snapjudge.__file__
for name in sys.argv[2:]:
    with open(name, "rb") as text, open(name[:-4] + ".report") as wanted:
        assert snapjudge.report(text.read())[1] == wanted.read(), name
' "$build/installed" "$build"/../../examples/*.csv &&
      env -u SNAPJUDGE_LIBRARY PYTHONPATH="$build/installed" python3 -B -m snapjudge.cluster "$build"/../../examples/atomic-run.csv &&
      env -u SNAPJUDGE_LIBRARY PYTHONPATH="$build/installed" python3 -B -m snapjudge.follow --once "$build"/../../examples/atomic-run.csv)
}

for tool in cc ar ld objcopy nm; do
  has $tool "all languages" || end_tests
done
try "build" ./build.sh "$@" "$build"
# a driver of before has another library
rm -f "$build"/driver_*
if [ "$failed" = 0 ]; then
  try "names" names
  try "C" compiled cc -std=c11
  if [ -x ../built/snapjudge ]; then
    try "what the program answers" by_program "$build/answers"
    try "each call in C" answers cc -std=c11
    has c++ "each call in C++" && try "each call in C++" answers c++ "-std=c++17 -x c++"
  else
    skip "each call beside the program" built/snapjudge
  fi
  has c++ "C++" && try "C++" compiled c++ "-std=c++17 -x c++" && try "values in C++" values
  has cargo "Rust" && try "Rust" rust
  has go "Go" && try "Go" go_package && try "Go outside of a clone" go_outside
  [ ! -x ../built/snapjudge ] || { has python3 "damaged texts" && try "damaged texts in each language" damaged; }
  if has python3 "Python"; then
    try "Python" python
    try "windows in Python" windows
    try "the lesson that is a notebook" lesson
    if [ -x ../built/snapjudge ]; then
      try "windows by the program" program_windows "$(realpath ../built/snapjudge)"
    else
      skip "windows by the program" "built/snapjudge is not here"
    fi
    has_pip && try "Python by pip" installed
    if with_dask=$(dask); then
      try "many recordings in Python" many "$with_dask"
    else
      try "many recordings in Python" many python3
      skip "many recordings by a Dask scheduler" "python3-distributed is not here"
    fi
  fi
fi
end_tests
