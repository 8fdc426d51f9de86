# Completion of awkwasm for bash. ci/completions writes this file from the help of the program.
_awkwasm() {
  local word="${COMP_WORDS[COMP_CWORD]}" options='' values='' arguments='' kind='' place=0 at last
  COMPREPLY=()
  if [ "$COMP_CWORD" = 1 ]; then
    mapfile -t COMPREPLY < <(compgen -W 'compile check run count exec imports explain help -h --help -V --version' -- "$word")
    return
  fi
  case ${COMP_WORDS[1]} in
    compile)
      options='--lines -h --help'
      arguments='files files'
      ;;
    check)
      options='-h --help'
      arguments='files'
      ;;
    run)
      options='-F -v --steps --no-files --read-only --only-operands --may-read --may-write --most-input --most-output --streams --where --stats -h --help'
      values='-F=nothing -v=variables --steps=nothing --may-read=files --may-write=files --most-input=nothing --most-output=nothing'
      arguments='nothing files+'
      ;;
    count)
      options='-F -v --steps --no-files --read-only --only-operands --may-read --may-write --most-input --most-output --streams -h --help'
      values='-F=nothing -v=variables --steps=nothing --may-read=files --may-write=files --most-input=nothing --most-output=nothing'
      arguments='files files+'
      ;;
    exec)
      options='-F -v --steps --no-files --read-only --only-operands --may-read --may-write --most-input --most-output --streams --where -h --help'
      values='-F=nothing -v=variables --steps=nothing --may-read=files --may-write=files --most-input=nothing --most-output=nothing'
      arguments='modules files+'
      ;;
    imports)
      options='-h --help'
      arguments='modules'
      ;;
    explain)
      options='-h --help'
      arguments='names'
      ;;
    help)
      arguments='commands'
      ;;
  esac
  # What the word is: the value of the option before it, or the argument of its place. bash cuts NAME=TEXT into three words.
  for ((at = 2; at < COMP_CWORD; at++)); do
    if [ "${COMP_WORDS[at]}" = = ]; then
      kind=''
      at=$((at + 1))
    elif [ "$kind" ]; then
      kind=''
    elif [[ " $values " == *" ${COMP_WORDS[at]}="* ]]; then
      kind="${values#*"${COMP_WORDS[at]}="}"
      kind="${kind%% *}"
    elif [[ ${COMP_WORDS[at]} != -?* ]]; then
      place=$((place + 1))
    fi
  done
  if [ -z "$kind" ]; then
    if [[ $word == -* ]]; then
      mapfile -t COMPREPLY < <(compgen -W "$options" -- "$word")
      return
    fi
    read -ra arguments <<<"$arguments"
    last=$((${#arguments[@]} - 1))
    [[ $last -lt 0 || $place -le $last || ${arguments[last]} != *+ ]] || place=$last
    kind="${arguments[place]%+}"
  fi
  case $kind in
    files)
      compopt -o filenames
      mapfile -t COMPREPLY < <(compgen -f -- "$word")
      ;;
    modules)
      compopt -o filenames
      mapfile -t COMPREPLY < <(compgen -f -X '!*.wasm' -- "$word"; compgen -d -- "$word")
      ;;
    variables)
      compopt -o nospace
      mapfile -t COMPREPLY < <(compgen -W 'CONVFMT= FS= OFMT= OFS= ORS= RS= SUBSEP=' -- "$word")
      ;;
    names) mapfile -t COMPREPLY < <(compgen -W "$(awkwasm explain 2>/dev/null)" -- "$word") ;;
    commands) mapfile -t COMPREPLY < <(compgen -W 'compile check run count exec imports explain help' -- "$word") ;;
  esac
}
complete -F _awkwasm awkwasm
