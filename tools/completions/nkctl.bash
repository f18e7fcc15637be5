# Completion of nkctl for bash: source this file, or put it into /usr/share/bash-completion/completions as nkctl.
_nkctl() {
  local word=${COMP_WORDS[COMP_CWORD]} before=${COMP_WORDS[COMP_CWORD - 1]}
  local commands="rules trace simulate run watch equiv audit check drive generate"
  COMPREPLY=()
  if [ "$COMP_CWORD" -eq 1 ]; then
    mapfile -t COMPREPLY < <(compgen -W "$commands --try --build-only --help --version" -- "$word")
  elif [ "$before" = --try ]; then
    mapfile -t COMPREPLY < <(compgen -W "$commands" -- "$word")
  elif [ "$before" != generate ] && [ "$before" != drive ]; then
    compopt -o filenames 2>/dev/null
    mapfile -t COMPREPLY < <(compgen -d -- "$word"; compgen -f -X '!*.nk' -- "$word")
  fi
}
complete -F _nkctl nkctl ./nkctl
