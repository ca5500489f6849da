# Completion of axe for bash: the commands and options that its own help names, and the files of the directory.

# _axe_commands PROGRAM: the names of its commands
_axe_commands() {
  "$1" help 2>/dev/null | sed -nE '/^Commands:/,/^$/s/^  ([a-z]+) .*/\1/p'
}

# _axe_options PROGRAM COMMAND: the options of a command
_axe_options() {
  "$1" "$2" -h 2>/dev/null | sed -nE '/^Options:/,/^$/p' | grep -oE '(^|[ ,])--?[a-z]+' | tr -d ' ,'
}

# the files here, and the name of each module: before the numbers of its files, or before the end of its one file
_axe_files() {
  compgen -f -- "$1"
  compgen -f -X '!*.1' -- "$1" | sed 's/\.1$//'
  compgen -f -X '!*.axm' -- "$1" | sed 's/\.axm$//'
}

_axe() {
  local program=${COMP_WORDS[0]} command=${COMP_WORDS[1]} word=${COMP_WORDS[COMP_CWORD]} found
  if [ "$COMP_CWORD" -eq 1 ]; then
    found=$(compgen -W "$(_axe_commands "$program") --help --version" -- "$word")
  elif [ "$command" = help ]; then
    found=$(compgen -W "$(_axe_commands "$program")" -- "$word")
  elif [[ $word == -* ]]; then
    found=$(compgen -W "$(_axe_options "$program" "$command")" -- "$word")
  elif [ "${COMP_WORDS[COMP_CWORD - 1]}" = -g ]; then
    found=$(compgen -W "$(echo {1..16})" -- "$word")
  elif [[ ${COMP_WORDS[COMP_CWORD - 1]} =~ ^--(seed|words)$ ]]; then
    # any number
    found=
  else
    found=$(_axe_files "$word")
  fi
  mapfile -t COMPREPLY < <([ -z "$found" ] || printf '%s\n' "$found" | sort -u)
}

complete -F _axe axe
