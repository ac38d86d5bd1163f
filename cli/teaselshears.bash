# Completion of the command teaselshears for bash. tools/install puts it where the package bash-completion finds it; without
# that package, source it. It needs nothing of the package.

# The options of a command; of the program itself where none is given yet.
_teaselshears_options() { # COMMAND
  case $1 in
    '') echo -h --help -V --version ;;
    audit) echo --json --brief --complete --missing-as-empty -0 --null -h --help ;;
    order) echo --complete --missing-as-empty -h --help ;;
    record) echo --missing-as-empty -h --help ;;
    audit-all) echo -j --jobs --json --brief --list --complete -0 --null -h --help ;;
    results) echo --since --state --verdict --complete --json --brief -h --help ;;
    explain) echo -h --help ;;
  esac
}

# The values of an option that has a list of them.
_teaselshears_values() { # OPTION
  case $1 in
    --list) echo empty open refused changed outdated damaged failed ;;
    --state) echo accepted empty open refused changed outdated damaged failed waiting ;;
    --verdict) echo {0..14} 16 ;;
  esac
}

# The words that may be the argument behind so many, or `folders`.
_teaselshears_arguments() { # COMMAND COUNT
  case $1,$2 in
    help,0) echo audit order record audit-all results explain ;;
    explain,0) echo {0..14} 16 ;;
    audit,* | order,0 | results,0 | record,[01] | audit-all,[01]) echo folders ;;
  esac
}

_teaselshears() {
  local word=${COMP_WORDS[COMP_CWORD]} command='' option='' ended='' count=0 at words
  for ((at = 1; at < COMP_CWORD; at++)); do
    case $ended$option,${COMP_WORDS[at]} in
      -?*,=) ;; # Bash splits --list=STATE in three.
      -?*,*) option= ;;
      ,--) ended=yes ;;
      ,-j | ,--jobs | ,--list | ,--since | ,--state | ,--verdict) option=${COMP_WORDS[at]} ;;
      ,-?*) ;;
      *) if [ -z "$command" ]; then command=${COMP_WORDS[at]}; else count=$((count + 1)); fi ;;
    esac
  done
  if [ -n "$option" ]; then
    words=$(_teaselshears_values "$option")
    word=${word#=}
  elif [ -z "$ended" ] && [[ $word = -* ]]; then
    words=$(_teaselshears_options "$command")
  elif [ -z "$command" ]; then
    words="audit order record audit-all results explain help $(_teaselshears_options '')"
  else
    words=$(_teaselshears_arguments "$command" "$count")
  fi
  if [ "$words" = folders ]; then
    # Bash then puts a slash behind a name, and quotes its blanks.
    compopt -o filenames 2>/dev/null
    mapfile -t COMPREPLY < <(compgen -d -- "$word")
  else
    mapfile -t COMPREPLY < <(compgen -W "$words" -- "$word")
  fi
}

complete -F _teaselshears teaselshears
