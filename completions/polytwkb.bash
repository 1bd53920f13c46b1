# Completion of polytwkb for bash. scripts/completions.py compares it with help.

_polytwkb() {
  local word=$2 before=$3 command= words= files=
  # after a redirection comes the name of a file
  case $before in
    *'<' | *'>' | '>|') compopt -o default; COMPREPLY=(); return ;;
  esac
  [ "$COMP_CWORD" -gt 1 ] && command=${COMP_WORDS[1]}

  # bash cuts a word at an equals sign
  if [ "$word" = = ]; then
    word=
    before=${COMP_WORDS[COMP_CWORD - 1]}
  elif [ "$before" = = ]; then
    before=${COMP_WORDS[COMP_CWORD - 2]}
  fi

  case $command,$before in
    pack,--max-nest) words="$(echo {0..32})" ;;
    pack,--style) words="full plain" ;;
    pack,--column) words="" ;;
    pack,--precision) words="$(echo {-8..7})" ;;
    pack,--ids) words="" ;;
    pack,--null) words="" ;;
    pack,--delimiter) words="" ;;
    pack,--output | pack,-o) files=1 ;;
    pack,*) words='--max-nest --style --column --precision --ids --hex --hex=bare --null --delimiter --output -o --help -h' files=1 ;;
    unpack,--max-nest) words="$(echo {0..32})" ;;
    unpack,--column) words="" ;;
    unpack,--delimiter) words="" ;;
    unpack,--output | unpack,-o) files=1 ;;
    unpack,*) words='--max-nest --column --delimiter --hex --hex=bare --geojson --collection --output -o --help -h' files=1 ;;
    show,--max-nest) words="$(echo {0..32})" ;;
    show,--output | show,-o) files=1 ;;
    show,*) words='--max-nest --output -o --help -h' files=1 ;;
    ,*) words='pack unpack show --help -h --version -V' ;;
  esac
  # a word without a minus sign is the name of a file, where there may be one
  if [ -n "$files" ] && [[ $word != -* ]]; then
    compopt -o default
    COMPREPLY=()
    return
  fi
  COMPREPLY=($(compgen -W "$words" -- "$word"))
}

complete -F _polytwkb polytwkb
