# Completes the command line of wdl in Bash.

# _wdl_files PATTERN WORD: completes folders, and files whose names match the pattern.
_wdl_files() {
  compopt -o filenames
  mapfile -t COMPREPLY < <(compgen -f -X "!$1" -- "$2"; compgen -d -- "$2")
}

# _wdl_options WORD OPTION..: completes the options that are not given yet.
_wdl_options() {
  local word=$1 option left=
  shift
  for option in "$@"; do
    [[ " ${COMP_WORDS[*]:0:COMP_CWORD} " == *" $option "* ]] || left+=" $option"
  done
  mapfile -t COMPREPLY < <(compgen -W "$left" -- "$word")
}

_wdl() {
  local commands='run check inputs cwl bundle explain load help version'
  local word=${COMP_WORDS[COMP_CWORD]} before=${COMP_WORDS[COMP_CWORD - 1]} command=${COMP_WORDS[1]}
  # Bash divides --inputs=FILE into three words.
  [[ $word != = ]] || word=
  [[ $before != = ]] || before=${COMP_WORDS[COMP_CWORD - 2]}
  COMPREPLY=()
  if ((COMP_CWORD == 1)); then
    mapfile -t COMPREPLY < <(compgen -W "$commands" -- "$word")
    return
  fi
  case $command,$before in
    run,--inputs | cwl,--inputs) _wdl_files '*.json' "$word" ;;
    run,--journal) compopt -o filenames && mapfile -t COMPREPLY < <(compgen -f -- "$word") ;;
    run,--root) compopt -o filenames && mapfile -t COMPREPLY < <(compgen -d -- "$word") ;;
    run,--workers | explain,* | load,* | version,*) ;;
    help,*) ((COMP_CWORD > 2)) || mapfile -t COMPREPLY < <(compgen -W "$commands" -- "$word") ;;
    *)
      case $command,$word in
        run,-*) _wdl_options "$word" --inputs --workers --root --journal ;;
        cwl,-*) _wdl_options "$word" --inputs ;;
        *) _wdl_files '*.wdl' "$word" ;;
      esac
      ;;
  esac
}

complete -F _wdl wdl
