# Completion of arrowpipe and arrowtree for bash: options and their values, stages, commands. Behind < bash itself has the files.
_arrowpipe() {
  local word=${COMP_WORDS[COMP_CWORD]} before=${COMP_WORDS[COMP_CWORD - 1]}
  COMPREPLY=()
  case ${COMP_WORDS[0]##*/} in
    arrowtree)
      [ "$COMP_CWORD" != 1 ] || mapfile -t COMPREPLY < <(compgen -W 'union tag tagdense foreign runs flat explode nest --help --version' -- "$word")
      return ;;
  esac
  case $before in
    --schema | --null) return ;;
    --batch) mapfile -t COMPREPLY < <(compgen -W '1024 16384 65536 1000000' -- "$word"); return ;;
    --workers) mapfile -t COMPREPLY < <(compgen -W "1 2 4 8 $(nproc 2> /dev/null)" -- "$word"); return ;;
    --ahead) mapfile -t COMPREPLY < <(compgen -W '16 32 64' -- "$word"); return ;;
    --selftest) mapfile -t COMPREPLY < <(compgen -W '1000 1000000' -- "$word"); return ;;
  esac
  mapfile -t COMPREPLY < <(compgen -W '--schema --null --batch --workers --ahead --audit --check --selftest --help --version
    select= drop= slice= filter= pack= unpack= dict= plain= totals=' -- "$word")
  [[ ${COMPREPLY[0]-} != *= ]] || compopt -o nospace 2> /dev/null
}
complete -F _arrowpipe arrowpipe arrowtree ./arrowpipe ./arrowtree
