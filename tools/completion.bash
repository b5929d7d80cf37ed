# Completion of ./gathorni for bash: source this file, as from ~/.bashrc.

# The names of the items that begin a line of a suite.
_gathorni_items() {
  sed -nE 's/^[[:space:]]*(check|property|machine)[[:space:]]+([a-z][a-z0-9_]*).*/\2/p' "$1" 2>/dev/null
}

# The help texts beside the program, as words.
_gathorni_words() {
  local folder name
  folder=$(dirname "$1")/tools/help
  for name in "$folder"/*; do echo "${name##*/}"; done
}

_gathorni() {
  local words=("${COMP_WORDS[@]}") at=$COMP_CWORD now=${COMP_WORDS[COMP_CWORD]} told=''
  COMPREPLY=()
  if [ "$at" -gt 1 ] && { [ "${words[1]}" = --unproved ] || [ "${words[1]}" = --proved ]; }; then
    words=("${words[0]}" "${words[@]:2}") at=$((at - 1))
  fi
  case $at:${words[1]} in
    1:*) told='test run replay explain stored make new prove help --help --proved --unproved' ;;
    2:help) told=$(_gathorni_words "${words[0]}") ;;
    3:replay | 3:explain) told=$(_gathorni_items "${words[2]}") ;;
    *:test)
      case $now:${words[at - 1]} in
        -*) told='--seed --workers --for --seeds --shard --junit' ;;
        *:--seed | *:--workers | *:--for | *:--seeds | *:--shard) return ;;
      esac
      ;;
  esac
  if [ -n "$told" ]; then
    mapfile -t COMPREPLY < <(compgen -W "$told" -- "$now")
  elif [ "$at:${words[1]}" = 2:run ] || [ "$at:${words[1]}" = 2:replay ] || [ "$at:${words[1]}" = 2:explain ] || [ "${words[1]}" = test ]; then
    mapfile -t COMPREPLY < <(compgen -f -X '!*.suite' -- "$now" | cat - <(compgen -d -- "$now"))
  fi
}

complete -o filenames -F _gathorni gathorni ./gathorni
