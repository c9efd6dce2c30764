# Completion of tide's commands, keys, files, stations, zones and layouts, for bash.

_tide_keys() {
  case "$1" in
    predict) echo "file station begin end mark offsets zone layout" ;;
    certify) echo "file station begin end mark offsets" ;;
    check) echo "file certificate offsets zone" ;;
    heights) echo "file station begin end step offsets zone layout" ;;
    calendar) echo "file station begin end mark offsets zone" ;;
    clock) echo "file station offsets zone" ;;
    stations) echo "file offsets" ;;
    report) echo "file station begin end sheets mark offsets" ;;
    highest) echo "file station begin end offsets zone" ;;
    peak) echo "file station begin end offsets" ;;
    peakcheck) echo "file certificate offsets" ;;
    about) echo "file station offsets" ;;
    serve) echo "file offsets port" ;;
    sample | trial) echo "seed" ;;
  esac
}

# The known values of the key $1 that begin with the text $2.
_tide_values() {
  local hour name word
  case "$1" in
    file | offsets | certificate) compgen -f -- "$2" ;;
    layout) compgen -W "plain csv" -- "$2" ;;
    sheets)
      name="${2%"${2##*,}"}"
      for word in tally range first ical; do
        [[ ",$name" == *",$word,"* ]] || compgen -W "$name$word" -- "$2"
      done
      ;;
    zone)
      case "$2" in
        @?*) compgen -f -- "${2#@}" | while read -r name; do if [[ -d "$name" ]]; then echo "@$name/"; else echo "@$name"; fi; done ;;
        [+-]*) for hour in {00..15}; do compgen -W "${2:0:1}$hour:00" -- "$2"; done ;;
        *) compgen -W "UTC @/usr/share/zoneinfo/" -- "$2" ;;
      esac
      ;;
  esac
}

# The names that begin with $3 of the stations in the files that the line $2 names, by the program $1.
_tide_stations() {
  local program="$1" key value words=()
  # A call of ./tide in the sources would build the program.
  if [[ "$program" == */* && -d "${program%/*}/crates" ]]; then program="${program%/*}/crates/tide/out/tide"; fi
  for key in file offsets; do
    [[ "$2" =~ [[:space:]]$key=([^[:space:]]+) ]] || continue
    value="${BASH_REMATCH[1]//[\"\'\\]/}"
    words+=("$key=${value/#\~\//$HOME/}")
  done
  # The name in a line `Sub unit NAME (REFERENCE)` ends where a known reference is in brackets.
  "$program" stations "${words[@]}" 2>/dev/null | begin="$3" awk '
    /^Ref / { sub(/^Ref [^ ]* /, ""); known[$0] }
    /^Sub / {
      sub(/^Sub [^ ]* /, "")
      for (at = 1; at < length($0); at++)
        if (substr($0, at, 2) == " (" && substr($0, at + 2, length($0) - at - 2) in known) { $0 = substr($0, 1, at - 1); break }
    }
    index($0, ENVIRON["begin"]) == 1'
}

# Completes a station from the line $2 by the program $1. Fails if the line doesn't end within a station's name.
_tide_in_station() {
  local name quote typed open="[[:space:]]station=(['\"]?)([^'\"]*)\$"
  [[ "$2" =~ $open ]] || return
  quote="${BASH_REMATCH[1]}" typed="${BASH_REMATCH[2]}"
  [[ -n "$quote" || "$typed" != *[[:space:]]* ]] || return
  while read -r name; do
    # bash closes quotation marks that are open. Without them the name gets those that it doesn't have itself.
    if [[ -n "$quote" ]]; then
      [[ "$name" == *"$quote"* ]] || COMPREPLY+=("$name")
    elif [[ "$name" != *\'* ]]; then
      COMPREPLY+=("'$name'")
    elif [[ "$name" != *\"* ]]; then
      COMPREPLY+=("\"$name\"")
    fi
  done < <(_tide_stations "$1" "$2" "$typed")
}

_tide() {
  local line="${COMP_LINE:0:COMP_POINT}" part="${COMP_WORDS[COMP_CWORD]}" word key value
  word="${line##*[[:space:]]}"
  COMPREPLY=()
  [[ " $(_tide_keys "${COMP_WORDS[1]-}") " != *" station "* ]] || ! _tide_in_station "${COMP_WORDS[0]}" "$line" || return
  if [[ "$COMP_CWORD" -eq 1 ]]; then
    mapfile -t COMPREPLY < <(compgen -W "predict certify check heights calendar clock stations report highest peak peakcheck about serve sample trial --help --version" -- "$word")
  elif [[ "$word" == *=* ]]; then
    key="${word%%=*}" value="${word#*=}"
    [[ " $(_tide_keys "${COMP_WORDS[1]}") " == *" $key "* ]] || return
    mapfile -t COMPREPLY < <(_tide_values "$key" "$value")
    # bash splits words at = and :, and replaces only the part behind these; an @ belongs to that part.
    [[ "$part" == [=:] ]] && part=
    [[ "$value" == @* ]] || COMPREPLY=("${COMPREPLY[@]#"${value%"$part"}"}")
    case "$key" in file | offsets | certificate) compopt -o filenames ;; esac
    [[ "${COMPREPLY[*]}" == *" "* || "${COMPREPLY[*]}" != */ ]] || compopt -o nospace
  else
    for key in $(_tide_keys "${COMP_WORDS[1]}"); do
      [[ "$key=" == "$word"* && "$line" != *[[:space:]]"$key="* ]] && COMPREPLY+=("$key=")
    done
    compopt -o nospace
  fi
}

complete -F _tide tide
