# Runs a command that may take long, and hears a signal meanwhile, also one to this shell alone: the command is ended then, and so
# is what it has started, since it does the same. Its status is that of the command, or 130 if a signal was heard.
heed() {
  heard=
  heeded=
  trap 'heard=yes; [ -z "$heeded" ] || kill "$heeded" 2>/dev/null' INT TERM HUP QUIT
  "$@" &
  heeded=$!
  [ -z "$heard" ] || kill "$heeded" 2>/dev/null
  # a signal ends the waiting too, and then the command has still to end; the shell's own word on that is not the program's
  while :; do
    wait "$heeded" 2>/dev/null
    set -- "$?"
    kill -0 "$heeded" 2>/dev/null || break
  done
  trap - INT TERM HUP QUIT
  [ -z "$heard" ] || return 130
  return "$1"
}
