# Completion of kcsan_litmus for bash: source this file, or copy it to ~/.local/share/bash-completion/completions/.
# It completes ./kcsan_litmus too. tests/options compares it with the help of the program.

# The answers: those of these words, or of the files in the lists that follow, that begin with what is typed.
_kcsan_litmus_words() { mapfile -t COMPREPLY < <(compgen -W "$1" -- "$cur"); }

_kcsan_litmus_files() {
  compopt -o filenames 2>/dev/null
  mapfile -t COMPREPLY < <(
    for pattern; do compgen -f -X "!$pattern" -- "$cur"; done
    compgen -d -- "$cur"
  )
}

# The same of a list: @ stays before it.
_kcsan_litmus_list() {
  local file
  compopt -o nospace 2>/dev/null
  while IFS= read -r file; do
    if [[ -d $file ]]; then file+=/; else file+=" "; fi
    COMPREPLY+=("@$file")
  done < <(compgen -f -- "$cur")
}

_kcsan_litmus() {
  local cur=${COMP_WORDS[COMP_CWORD]} before=${COMP_WORDS[COMP_CWORD - 1]} command=${COMP_WORDS[1]}
  local commands="step run search join races replay show check help" formats="text json" options=
  local settings="--place --slots --skip --randomize --seed --strict --value-change-only --plain-writes-atomic
    --unknown-origin --kconfig --word --turns"
  COMPREPLY=()
  if ((COMP_CWORD == 1)); then
    [[ $cur != -* ]] || commands="--help -h --version -V"
    _kcsan_litmus_words "$commands"
    return
  fi
  case $command in
    step) options="--schedule -s --where --trace -o --color $settings" ;;
    run) options="--runs -r --delay --jobs --stop-at-first --keep-going --where --trace -o --color $settings" ;;
    search)
      options="--switches --reduce --part --limit --seconds --jobs --format --settings --where --trace -o"
      options="$options --color $settings"
      formats="text json csv herd"
      ;;
    join) options="--where --settings --color" ;;
    races) options="--limit --seconds --jobs --format --html --color $settings" ;;
    replay) options="--color" ;;
    show) options="--source --slots --svg -o --ascii" ;;
    check) options="--print --calls --color --schedule -s --place --slots --word" ;;
  esac

  # Of --format=json bash makes three words, and of @LIST two.
  [[ $cur != = ]] || cur=
  [[ $before != = ]] || before=${COMP_WORDS[COMP_CWORD - 2]}
  [[ $cur != @ ]] || { before=@ cur= ; }
  [[ $command != show || $before != --slots ]] || before=
  case $before in
    --source) _kcsan_litmus_files '*.litmus' ;;
    --format) _kcsan_litmus_words "$formats" ;;
    --word) _kcsan_litmus_words "64 32" ;;
    --color) _kcsan_litmus_words "auto always never" ;;
    --switches) _kcsan_litmus_words all ;;
    --value-change-only | --plain-writes-atomic | --unknown-origin | --reduce) _kcsan_litmus_words "yes no" ;;
    --kconfig) _kcsan_litmus_files '*.config' '*config-*' ;;
    --trace | --svg | --html | -o) _kcsan_litmus_files '*' ;;
    @) _kcsan_litmus_list ;;
    --schedule | -s | --place | --slots | --skip | --seed | --turns) ;;
    --runs | -r | --delay | --jobs | --part | --limit | --seconds) ;;
    *)
      case $command/$cur in
        */-*) _kcsan_litmus_words "$options --help -h" ;;
        help/*) _kcsan_litmus_words "$commands" ;;
        replay/* | show/* | join/*) _kcsan_litmus_files '*' ;;
        *) _kcsan_litmus_files '*.litmus' ;;
      esac
      ;;
  esac
}

complete -F _kcsan_litmus kcsan_litmus
