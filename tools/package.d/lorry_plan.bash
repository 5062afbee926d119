# Completion of lorry_plan for bash: commands, options, folders, and the vehicles and files of the folder that was named.

# The names of the values of a command, in their order.
_lorry_plan_places() {
  local trip='DIR VEHICLE FROM TO DEPART UNTIL'
  case $1 in
    plan | latest | breaks) echo "$trip" ;;
    check) echo "$trip NAME" ;;
    tour) echo "$trip STOPS" ;;
    explain) echo "$trip ITINERARY" ;;
    bans) echo 'DIR VEHICLE ARC DEPART UNTIL' ;;
    batch) echo 'DIR JOBS' ;;
    gen) echo 'DIR NUMBER ROWS COLUMNS' ;;
  esac
}

_lorry_plan_options() {
  case $1 in
    plan) echo '--form --certificate' ;;
    batch) echo '--workers' ;;
    tour | breaks) echo '--drive --rest' ;;
  esac
}

# What may stand for a value, one to a line: the value's name, and the folder DIR.
_lorry_plan_choices() {
  case $1 in
    VEHICLE)
      echo any
      [ -r "$2/vehicles.csv" ] && tail -n +2 "$2/vehicles.csv" | cut -d , -f 1 | tr -d '"\r'
      ;;
    JOBS | STOPS) (cd "$2" 2>/dev/null && compgen -G '*.csv') ;;
    NAME) (cd "$2" 2>/dev/null && compgen -G '*.cert') ;;
    ITINERARY) (cd "$2" 2>/dev/null && compgen -f) ;;
    F) printf '%s\n' plain table csv json ;;
  esac
}

_lorry_plan() {
  # bash cuts words at : and = too; here they are cut at blanks alone, and a backslash keeps a blank.
  local line=${COMP_LINE:0:COMP_POINT} words current='' word command dir='' option='' place='' count=0
  read -a words <<<"$line"
  case $line in
    *[[:blank:]]) ;;
    *)
      current=${words[-1]}
      unset 'words[-1]'
      ;;
  esac
  if [ "${#words[@]}" -le 1 ]; then
    COMPREPLY=($(compgen -W 'plan check bans batch gen latest tour breaks explain' -- "$current"))
    return
  fi
  command=${words[1]}
  # The values so far; the word behind an option is its value.
  for word in "${words[@]:2}"; do
    if [ -n "$option" ]; then
      option=''
    elif [[ $word == --*=* ]]; then
      :
    elif [[ $word == --* ]]; then
      option=$word
    else
      count=$((count + 1))
      [ "$count" -gt 1 ] || dir=$word
    fi
  done
  if [[ -z $option && $current == --*=* ]]; then
    option=${current%%=*}
    current=${current#*=}
  fi
  if [ -n "$option" ]; then
    case $option in
      --form) place=F ;;
      --certificate) place=NAME ;;
    esac
  elif [[ $current == -* ]]; then
    COMPREPLY=($(compgen -W "$(_lorry_plan_options "$command")" -- "$current"))
    return
  else
    place=$(set -- $(_lorry_plan_places "$command") && shift "$count" && echo "$1")
  fi
  dir=${dir/#\~/$HOME}
  local IFS=$'\n'
  if [ "$place" = DIR ]; then
    compopt -o filenames
    COMPREPLY=($(compgen -d -- "$current"))
  else
    COMPREPLY=($(compgen -W "$(_lorry_plan_choices "$place" "$dir")" -- "$current"))
  fi
}

complete -F _lorry_plan lorry_plan
