# Completion of mxf_archive for bash: its commands, their options, and the forms of a source with the paths after them.
# shellcheck shell=bash

# _mxf_archive_paths PREFIX PATH: completes the path, after the prefix. Readline completes what stands after the last of
# the characters at which it breaks words, of which the colon is one; so the words that are answered begin there.
_mxf_archive_paths() {
  local path
  while IFS= read -r path; do
    if [ -d "$path" ]; then
      COMPREPLY+=("$1$path/")
    else
      COMPREPLY+=("$1$path")
    fi
  done < <(compgen -f -- "$2")
  compopt -o nospace -o filenames 2>/dev/null || true
}

# _mxf_archive_source WORD: completes the path of a source that has its form and numbers; fails if the word is none
_mxf_archive_source() {
  local word=$1 path behind=''
  # What stands before the last colon is no part of the word that readline replaces.
  case $COMP_WORDBREAKS in *:*) ;; *) behind=${word%:*}: ;; esac
  case $word in
    cat:*) path=${word#cat:} ;;
    slice:*:*:*) path=${word#*:*:*:} ;;
    at:*:* | range:*:*) path=${word#*:*:} ;;
    at:* | range:* | slice:*) return 0 ;;
    *) return 1 ;;
  esac
  _mxf_archive_paths "${behind:+${word%"$path"}}" "$path"
}

# _mxf_archive_words COMMAND BEFORE: prints the options of a command, and the forms of a source if it takes them
_mxf_archive_words() {
  local forms='at: range: slice: cat:'
  case $1:$2 in
    *:--against) echo "$forms" ;;
    *:--by) echo 'name offset' ;;
    add:*) echo "$forms --catalogue --skim --sources --from --into --list --jobs --most --timeout --header --help" ;;
    lines:*) echo "$forms --catalogue --skim --sources --help" ;;
    verify:*) echo "$forms --against --sources --jobs --csv --json --help" ;;
    match:*) echo "$forms --sources --csv --json --help" ;;
    list:*) echo '--missing --damaged --disputed --changed --unverified-since --csv --json --help' ;;
    orders:*) echo '--by --merge --csv --json --help' ;;
    find:* | show:*) echo '--csv --json --help' ;;
    scan:*) echo '--jobs --large --joined --help' ;;
    join:*) echo '--part --jobs --help' ;;
    pages:*) echo '--jobs --help' ;;
    accept:*) echo '--drop --help' ;;
    load:* | remove:* | rename:*) echo '--help' ;;
  esac
}

_mxf_archive() {
  local line=${COMP_LINE:0:COMP_POINT} word before
  # The words as the shell sees them, when a colon breaks none.
  local -a words
  read -ra words <<<"$line"
  case $line in *[[:space:]]) words+=('') ;; esac
  word=${words[-1]} before=${words[-2]-}
  COMPREPLY=()
  if [ "${#words[@]}" -le 2 ]; then
    mapfile -t COMPREPLY < <(compgen -W 'scan list find show orders verify accept match pages rename remove add lines load join --help' -- "$word")
    return
  fi
  case $before in
    --catalogue | --sources | --list | --joined | --into) _mxf_archive_paths '' "$word" && return ;;
    --unverified-since | --merge | --jobs | --large | --part | --most | --timeout | --header) return ;;
    --from)
      case $word in cmd:* | http:* | https:*) return ;; esac
      _mxf_archive_paths '' "$word"
      mapfile -t -O "${#COMPREPLY[@]}" COMPREPLY < <(compgen -W 'http:// https:// cmd:' -- "$word")
      return
      ;;
  esac
  _mxf_archive_source "$word" && return
  # The database is the first word of each command but two; scan and pages take a folder behind it, join two folders, and
  # load files alone.
  case ${words[1]}:${#words[@]}:$word in
    lines:3:* | *:-*) ;;
    *:3:* | load:* | scan:4:* | pages:4:* | join:4:*) _mxf_archive_paths '' "$word" && return ;;
  esac
  mapfile -t COMPREPLY < <(compgen -W "$(_mxf_archive_words "${words[1]}" "$before")" -- "$word")
  case ${COMPREPLY[0]-} in at: | range: | slice: | cat:) compopt -o nospace 2>/dev/null ;; esac
}

complete -F _mxf_archive mxf_archive
