# Completion in bash of the commands. Sourced, or found in share/bash-completion/completions, where ./install puts it with the names of the programs.

# _rcce_files WORD [ENDING]: files, or folders and files that end so
_rcce_files() {
  local IFS=$'\n' only=()
  compopt -o filenames 2>/dev/null
  [ -z "${2-}" ] || only=(-X "!*$2")
  COMPREPLY+=($(compgen -f ${only[@]+"${only[@]}"} -- "$1"))
  [ -z "${2-}" ] || COMPREPLY+=($(compgen -d -- "$1"))
}

_rcce_words() { COMPREPLY+=($(compgen -W "$1" -- "$2")); }

_rcce() {
  local word=${COMP_WORDS[COMP_CWORD]} before=${COMP_WORDS[COMP_CWORD - 1]} program=${COMP_WORDS[0]##*/} command='' options='' at=1
  COMPREPLY=()
  case $before in
    -f | -o)
      _rcce_files "$word"
      return
      ;;
    --wanted)
      compopt -o filenames 2>/dev/null
      COMPREPLY=($(compgen -d -- "$word"))
      return
      ;;
    --form)
      _rcce_words 'svg text dot' "$word"
      return
      ;;
    -nue | -at | -evict | -serial | -gen | --show) return ;;
  esac
  if [ "$program" = rcce ]; then
    if [ "$COMP_CWORD" -eq 1 ]; then
      _rcce_words 'run why sum mesh draw log audit lab trace grade explain --help --version' "$word"
      return
    fi
    command=${COMP_WORDS[1]}
    at=2
  fi
  case $program:$command in
    rcce-trace:) options='--help --version -o --calls' ;;
    rcce-page:) options='--help --version -o --from --to' ;;
    rcce-trace-from:) options='--help --version' ;;
    rccetrace:) options='-calls -nue -f -evict -serial -bits -gen --help --version' ;;
    rccecoll:)
      [ "$COMP_CWORD" -ne 1 ] || _rcce_words '--help --version' "$word"
      [ "$COMP_CWORD" -ne 2 ] || _rcce_words 'gather scatter allgather alltoall' "$word"
      return
      ;;
    rcce:run) options='--help --version --json --quiet -nue -f -evict -serial -bits -gen' ;;
    rcce:mesh) options='--help --version --json --quiet -nue -at -f' ;;
    rcce:draw) options='--help --version --json --quiet -nue -at -f -o --form' ;;
    rcce:grade) options='--help --version --json --quiet -nue --wanted' ;;
    rcce:trace) options='--help --version --json --quiet --keep-going --moves' ;;
    rcce:lab) options='--help --version --json --quiet --show' ;;
    rcce:audit | rcce:explain) options='--help --version --json --quiet' ;;
    rcce:*) options='--help --version --json --quiet -nue' ;;
    # those that its help tells
    *) options=$("${COMP_WORDS[0]/#\~/$HOME}" --help 2>/dev/null | sed -nE 's/^  (-[a-z]+) .*/\1/p')' --help --version' ;;
  esac
  case $word in
    -*) _rcce_words "$options" "$word" ;;
    *)
      if [ "$command" = draw ] && [ "$COMP_CWORD" -eq "$at" ]; then
        _rcce_words 'waits messages mesh' "$word"
      elif [ "$command" = lab ] && [ "$COMP_CWORD" -eq "$at" ]; then
        _rcce_words 'orders' "$word"
      elif [ "$command" = explain ]; then
        _rcce_words "$("${COMP_WORDS[0]/#\~/$HOME}" explain --json 2>/dev/null | grep -o '"kind": *"[A-Za-z]*"' | sed 's/.*: *"//; s/"//')" "$word"
      elif [ "$program" = rccelab ] || [ "$command" = lab ]; then
        _rcce_files "$word" .lab
      else
        _rcce_files "$word"
      fi
      ;;
  esac
}

complete -F _rcce rcce rcce-trace rcce-page rcce-trace-from @PROGRAMS@
