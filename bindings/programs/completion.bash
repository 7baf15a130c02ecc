# Completion for bash of the programs: words, options, and files of the kind that each takes.

_gql_files() { # PATTERN: files of a kind, and folders
  local IFS=$'\n'
  compopt -o filenames 2>/dev/null
  mapfile -t COMPREPLY < <(compgen -f -X "!$1" -- "$cur"; compgen -d -- "$cur")
}

_gql_words() { # WORD..
  mapfile -t COMPREPLY < <(compgen -W "$*" -- "$cur")
}

_gql_answer() {
  case $prev in
    --schema | --query) _gql_files '*.@(graphql|graphqls|gql)' ;;
    --data) _gql_files '*.json' ;;
    --variables | --operation) ;;
    *)
      if [[ $cur == -* || ${#COMP_WORDS[@]} -gt 3 ]]; then
        _gql_words --schema --query --data --variables --operation --introspection --help
      else
        _gql_files '*.json'
      fi
      ;;
  esac
}

_gql_serve() {
  case $prev in
    --host | --port | --seed | --depth | --cost | --latency | --fail | --cors | --body-limit | --time-limit) ;;
    *)
      if [[ $cur == -* ]]; then
        _gql_words --host --port --seed --no-introspection --depth --cost --latency --fail --cors --body-limit --time-limit --help
      else
        _gql_files '*.@(graphql|graphqls|gql|json)'
      fi
      ;;
  esac
}

_gql() {
  local cur=${COMP_WORDS[COMP_CWORD]} prev=${COMP_WORDS[COMP_CWORD - 1]}
  COMPREPLY=()
  if ((COMP_CWORD == 1)); then
    _gql_words answer check serve selftest --help --version
    return
  fi
  case ${COMP_WORDS[1]} in
    answer) _gql_answer ;;
    check) _gql_files '*.@(graphql|graphqls|gql|json)' ;;
    serve) _gql_serve ;;
  esac
}

_gql_request() {
  local cur=${COMP_WORDS[COMP_CWORD]}
  COMPREPLY=()
  if [[ $cur == -* ]]; then
    _gql_words --help --version
  else
    _gql_files '*.json'
  fi
}

# `@(..)` in the patterns.
shopt -s extglob
complete -F _gql gql
complete -F _gql_request gql_cost gql_gateway gql_checker gql_client_schema
