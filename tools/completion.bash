# Completion of `fries` for bash. In ~/.bashrc:
#
#     source PATH/TO/tools/completion.bash
#
# It offers the commands, the options of the command that was typed, and the names of files.

# The options of a command.
_fries_options() {
  case $1 in
    run) echo "--threads --capacity --ordered --exact --help" ;;
    live | save | resume) echo "--threads --capacity --help" ;;
    stream) echo "--threads --capacity --save --every --from --ordered --exact --resume --progress --help" ;;
    plan) echo "--ordered --help" ;;
    verify) echo "--ordered --live --stream --save --help" ;;
    make) echo "--threads --ordered --help" ;;
    first | check) echo "--help" ;;
  esac
}

# What the file names of a command end in, by the place of the name after the command, from 1.
_fries_ending() {
  case $1-$2 in
    check-1 | plan-[12] | run-[12] | live-[12] | save-[12] | resume-[12] | verify-[12] | make-1) echo "toml" ;;
    first-[12] | run-[345] | live-[345] | save-[3456] | resume-[3456] | verify-[345]) echo "csv" ;;
    stream-[12]) echo "toml" ;;
    stream-[34]) echo "csv" ;;
  esac
}

# Sets `names` to how many names stand between the command and the word that is typed.
_fries_count_names() {
  local at
  names=0
  for ((at = 2; at < COMP_CWORD; at++)); do
    case ${COMP_WORDS[at]} in
      --threads | --capacity | --save | --every | --from)
        # The value follows, as a word of its own or after a `=`.
        [ "${COMP_WORDS[at + 1]}" = "=" ] && at=$((at + 1))
        at=$((at + 1))
        ;;
      -*) ;;
      *) names=$((names + 1)) ;;
    esac
  done
}

# Offers folders, and files with an ending; all files if the ending is empty.
_fries_files() {
  local ending=$1 typed=$2 file
  COMPREPLY=()
  compopt -o filenames
  while IFS= read -r file; do
    if [ -d "$file" ] || [ -z "$ending" ] || [[ $file == *."$ending" ]]; then
      COMPREPLY+=("$file")
    fi
  done < <(compgen -f -- "$typed")
  # If no name has the ending, any name may be wanted.
  if [ "${#COMPREPLY[@]}" = 0 ] && [ -n "$ending" ]; then _fries_files "" "$typed"; fi
}

_fries() {
  local typed=${COMP_WORDS[COMP_CWORD]} before=${COMP_WORDS[COMP_CWORD - 1]}
  local command=${COMP_WORDS[1]} names
  if [ "$COMP_CWORD" = 1 ]; then
    mapfile -t COMPREPLY < <(compgen -W "first check plan run live stream save resume verify make --help --version" -- "$typed")
    return
  fi
  # Bash cuts words at `=`, so `--threads=2` comes as three words.
  if [ "$before" = "=" ]; then before=${COMP_WORDS[COMP_CWORD - 2]}; fi
  if [ "$typed" = "=" ]; then typed=""; fi
  case $before in
    --threads)
      mapfile -t COMPREPLY < <(compgen -W "1 2 4 8 16" -- "$typed")
      return
      ;;
    --capacity)
      mapfile -t COMPREPLY < <(compgen -W "1 8 16 32 64" -- "$typed")
      return
      ;;
    --save)
      _fries_files csv "$typed"
      return
      ;;
    --every | --from)
      # Any number may be wanted.
      return
      ;;
  esac
  if [[ $typed == -* ]]; then
    mapfile -t COMPREPLY < <(compgen -W "$(_fries_options "$command")" -- "$typed")
    return
  fi
  _fries_count_names
  local place=$((names + 1)) ending
  ending=$(_fries_ending "$command" "$place")
  # Other words are numbers, or there is none.
  if [ -n "$ending" ]; then _fries_files "$ending" "$typed"; fi
}

complete -F _fries fries ./fries
