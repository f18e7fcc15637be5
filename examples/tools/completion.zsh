# Prints what the completion for zsh offers at the end of each line that is named, in one line each.
# usage: zsh -f examples/tools/completion.zsh FOLDER LINE..    FOLDER has the file _nkctl
# A second shell completes at a terminal of its own. There this file is read again, so that `compadd` also notes what it gets.

# In the second shell: each completion ends with a line of all words that were offered.
if [[ $1 == --inside ]]; then
  fpath=($2 $fpath)
  autoload -Uz compinit
  compinit -u -D
  compadd() {
    local place=${@[(i)(-|--)]}
    # with one of these it only looks, or fills an array
    if [[ " ${@[1,place]} " == *" -"[a-zA-Z]#[OAD]" "* ]]; then
      builtin compadd "$@"
      return
    fi
    local -a given
    builtin compadd -A given "$@"
    offered+=($given)
    builtin compadd "$@"
  }
  begins() {
    offered=()
    compprefuncs=(begins) comppostfuncs=(ends)
  }
  ends() {
    print -r -- "offered: ${(ou)offered} :end"
  }
  compprefuncs=(begins) comppostfuncs=(ends)
  setopt extended_glob
  bindkey "^I" list-choices
  print is-ready
  return
fi

zmodload zsh/zpty || exit 1
file=${0:a} folder=${1:a}
shift
zpty shell zsh -f -i
trap 'zpty -d shell' EXIT
zpty -w shell "PS1=; stty -echo; source ${(q)file} --inside ${(q)folder}"
zpty -r shell text '*is-ready*' || exit 1
for line in "$@"; do
  zpty -w -n shell "$line"$'\t'
  zpty -r shell text '*offered: * :end*' || exit 1
  text=${text##*offered: }
  print -r -- "$line: ${text%% :end*}"
  # the line is emptied for the next one
  zpty -w -n shell $'\C-u'
done
