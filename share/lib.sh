# What the scripts of tests share; each reads this file. It counts what passes, fails and is skipped, and ends by `end_tests`. Its own
# name in the gate is in `part`. It has the folder $room, which goes at its end, even if a signal ends it.

# A script that is asked for help writes its own head, and does nothing else.
case ${1-} in
  -h | --help)
    sed -n '2,/^[^#]/ s/^# \{0,1\}//p' "$0"
    exit 0
    ;;
esac

passed=0
failed=0
skipped=0
room=$(mktemp -d) || exit 1
trap 'rm -rf "$room"' EXIT
trap 'exit 130' INT TERM HUP

# try NAME COMMAND ..: one test, which passes if the command ends with 0. Else the end of what it wrote is shown.
try() {
  tried=$1
  shift
  if "$@" >"$room/log" 2>&1; then
    echo "$part: $tried: passed"
    passed=$((passed + 1))
  else
    tail -n 20 "$room/log"
    fail_test "$tried"
  fi
}

# fail_test NAME: counts a test that failed, and names it
fail_test() {
  echo "$part: $1: failed"
  failed=$((failed + 1))
}

# expect NAME STATUS OUTPUT COMMAND ..: one test, which passes if the command ends with this status and writes just that. What it writes on
# standard error is kept in $room/err.
expect() {
  name=$1 status=$2 output=$3
  shift 3
  "$@" >"$room/out" 2>"$room/err" </dev/null
  found=$?
  if [ "$found" = "$status" ] && printf '%s' "$output" | cmp -s - "$room/out"; then
    passed=$((passed + 1))
  else
    fail_test "$name"
    echo "its status is $found, and $status is wanted; it wrote"
    cat "$room/out" "$room/err"
  fi
}

# expect_said NAME TEXT: one test, which passes if the command of the last `expect` wrote this line, or these, on standard error
expect_said() {
  if { [ -z "$2" ] || printf '%s\n' "$2"; } | cmp -s - "$room/err"; then
    passed=$((passed + 1))
  else
    fail_test "$1"
    echo "standard error has"
    cat "$room/err"
  fi
}

# skip WHAT REASON: counts what was not tried
skip() {
  echo "skipped: $1, $2"
  skipped=$((skipped + 1))
}

# has TOOL WHAT: whether there is such a tool; else what would be tried with it is skipped
has() {
  ! command -v "$1" >/dev/null || return 0
  skip "$2" "$1 is not here"
  return 1
}

# end_tests: the last line, which the gate reads; the status is 0 if nothing failed
end_tests() {
  more=
  [ "$skipped" = 0 ] || more=", $skipped skipped"
  echo "$passed passed, $failed failed$more"
  [ "$failed" = 0 ]
  exit
}
