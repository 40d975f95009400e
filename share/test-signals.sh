# What a signal to one process alone ends: that of the launcher, of an installation and of ./package. share/test.sh reads this file:
# its tree of one crate is there, with a prover that waits while there is a file answer.wait.

# Whether the prover has ended. It is gone once a process that started none of this has waited for it.
has_ended() {
  for turn in $(seq 200); do
    kill -0 "$(cat answer.pid)" 2>/dev/null || return 0
    sleep 0.05
  done
  return 1
}

# ends NAME STATUS SIGNAL SAID COMMAND ..: a command that proves gets a signal while it does, says this and ends so, and the prover
# ends too. What a shell starts beside it ignores two signals, and so here the command takes them up again.
ends() {
  name=$1 status=$2 signal=$3 said=$4
  shift 4
  rm -f one.err
  touch answer.wait
  python3 -c 'import os, signal, sys
for it in (signal.SIGINT, signal.SIGQUIT):
    signal.signal(it, signal.SIG_DFL)
os.execvp(sys.argv[1], sys.argv[1:])' "$@" >one 2>one.err </dev/null &
  one=$!
  await "at work" one.err
  kill "-$signal" "$one"
  wait "$one"
  codes=$?
  expect "$name" 0 "$status
$said
" sh -c 'echo "$1"; cat one one.err' sh "$codes"
  expect "$name ends the prover" 0 "" has_ended
  rm answer.wait
}

interrupted="at work
snapjudge: the build failed: it was interrupted"
echo older >$main
for signal in TERM INT HUP QUIT; do
  ends "$signal to the launcher alone" 70 "$signal" "$interrupted" tree/snapjudge check
done

# a launcher that waits for another build
rm -f two.err
touch answer.wait
tree/snapjudge check >one 2>one.err &
one=$!
await "at work" one.err
tree/snapjudge check >two 2>two.err &
two=$!
await waiting two.err
kill "$two"
wait "$two"
codes=$?
rm answer.wait
wait "$one"
expect "a launcher that waits for another build" 0 "70, 0
$waits
snapjudge: the build failed: it was interrupted
older
" sh -c 'echo "$1"; cat two.err one' sh "$codes, $?"

cp "$top/package" "$top/install" tree
echo newer >$main
ends "an installation" 130 TERM "$interrupted" tree/install stopped/prefix
ends "./package that builds" 130 TERM "$interrupted" tree/package stopped/dist
builds "the program" newer
printf '#!/bin/sh\nmkdir -p "$1/bin" && cp built/snapjudge "$1/bin"\n' >tree/install
ends "./package that proves" 130 TERM "at work" tree/package stopped/dist
expect "what it left" 1 "" test -e stopped/dist
rm tree/package tree/install
