# What three shells complete. share/test.sh reads this file: it works in the room there, with its functions and its files.

# Expects these completions of the words, in a shell that is here: each word of the completions is between blanks.
completes() {
  wanted=$2
  case $shell in
    bash) expect "bash: $1" 0 "$wanted " bash -c '. "$1"
      read -r -a COMP_WORDS <<<"$2"
      [[ $2 != *" " ]] || COMP_WORDS+=("")
      COMP_CWORD=$((${#COMP_WORDS[@]} - 1))
      _snapjudge
      printf "%s\n" "${COMPREPLY[@]}" | LC_ALL=C sort | tr "\n" " "' bash "$top/share/snapjudge.bash" "$1" ;;
    zsh) expect "zsh: $1" 0 "$wanted " sh -c 'zsh -f "$1/complete.zsh" "$1" "$2" "$3" | sed "/^$/d" | LC_ALL=C sort | tr "\n" " "' \
      sh "$top/share" "$room/zsh" "$1" ;;
    fish) expect "fish: $1" 0 "$wanted " sh -c 'fish --no-config -c "source \$argv[1]; complete -C \$argv[2]" "$1" "$2" | cut -f 1 |
      LC_ALL=C sort | tr "\n" " "' sh "$top/share/snapjudge.fish" "$1" ;;
  esac
}
mkdir -p complete zsh
cd complete || exit 1
touch one.csv two.csv
for shell in bash zsh fish; do
  has "$shell" "completions of $shell" || continue
  completes "snapjudge sh" shrink
  completes "snapjudge --v" --version
  completes "snapjudge check --" "--color --cut --events --files-from --follow --format --help --idle --late --no-progress --null --pieces --quiet --recursive --summary --views --window --workers --writers"
  completes "snapjudge check --writers " "many one"
  completes "snapjudge check --format " "json junit plain"
  completes "snapjudge check --color " "always auto never"
  completes "snapjudge check --files-from t" two.csv
  completes "snapjudge check --quiet --pi" --pieces
  completes "snapjudge record --" "--events --help --judge --rounds --scan --seed --stamped --workers"
  completes "snapjudge record --scan --r" --rounds
  completes "snapjudge draw --" "--around --calls --dark --events --from --help --light --svg --text --writers"
  completes "snapjudge draw --svg --d" --dark
  completes "snapjudge shrink --" "--draw --events --help --map --writers"
  completes "snapjudge explain --" "--all --cut --draw --events --faults --help --writers"
  completes "snapjudge explain --d" --draw
  completes "snapjudge stats --" "--events --format --help --writers"
  completes "snapjudge stats --format " "json plain"
  for command in check shrink explain draw stats; do
    completes "snapjudge $command " "one.csv two.csv"
    completes "snapjudge $command t" two.csv
  done
  for command in check stats; do
    completes "snapjudge $command one.csv t" two.csv
  done
done
cd ..
