# Completions of snapjudge for bash.
_snapjudge() {
  local word=${COMP_WORDS[COMP_CWORD]} before=${COMP_WORDS[COMP_CWORD - 1]} words=
  case $before in
    --pieces | --workers | --views | --events | --window | --idle | --late | --rounds | --seed | --calls | --from | --around | --faults) return ;;
    --color) mapfile -t COMPREPLY < <(compgen -W 'auto always never' -- "$word"); return ;;
    --writers) mapfile -t COMPREPLY < <(compgen -W 'one many' -- "$word"); return ;;
    --files-from) mapfile -t COMPREPLY < <(compgen -f -- "$word"); return ;;
    -r | --recursive) mapfile -t COMPREPLY < <(compgen -d -- "$word"); return ;;
    --format)
      words='plain json junit'
      [[ ${COMP_WORDS[1]} != stats ]] || words='plain json'
      mapfile -t COMPREPLY < <(compgen -W "$words" -- "$word")
      return
      ;;
  esac
  case ${COMP_WORDS[1]} in
    check | shrink | explain | draw | stats)
      words=--help
      [[ ${COMP_WORDS[1]} != check ]] || words='--pieces --workers --files-from --null --recursive --quiet -q --views --events --writers --format --summary --follow --window --idle --late --cut --no-progress --color --help'
      [[ ${COMP_WORDS[1]} != draw ]] || words='--svg --text --light --dark --calls --from --around --events --writers --help'
      [[ ${COMP_WORDS[1]} != stats ]] || words='--format --events --writers --help'
      [[ ${COMP_WORDS[1]} != shrink ]] || words='--draw --map --events --writers --help'
      [[ ${COMP_WORDS[1]} != explain ]] || words='--cut --draw --all --faults --events --writers --help'
      [[ $word == -* ]] || { mapfile -t COMPREPLY < <(compgen -f -- "$word"); return; }
      ;;
    record) words='--workers --rounds --events --seed --scan --judge --stamped --help' ;;
    *) words='check shrink explain draw stats record --help --version -V' ;;
  esac
  mapfile -t COMPREPLY < <(compgen -W "$words" -- "$word")
}
complete -o filenames -F _snapjudge snapjudge
