# Writes what zsh completes the words with, each once. usage: zsh -f complete.zsh COMPLETIONS ROOM WORDS, where both are folders
zmodload zsh/zpty || exit
rm -f $2/found
: >$2/found
print -r -- '
PROMPT=
fpath=('${(q)1}' $fpath)
autoload -Uz compinit
compinit -u -D
bindkey "^I" complete-word
compadd() {
  case ${@[1,(i)(-|--)]} in
    *-[OAD]\ *) builtin compadd "$@"; return ;;
  esac
  local -a hits
  builtin compadd -A hits "$@"
  print -rl -- $hits >>'${(q)2}'/found
  builtin compadd "$@"
}
comppostfuncs=(exit)
print ready' >$2/setup
zpty shell zsh -f -i
zpty -w shell "source ${(q)2}/setup"
while zpty -r shell line && [[ $line != ready* ]]; do :; done
zpty -n -w shell "$3"$'\t'
while zpty -r shell line; do :; done
sort -u $2/found
