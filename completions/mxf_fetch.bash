# Completion of mxf_fetch for bash: its commands, their options, the paths of recordings, and the forms of a source with the
# paths after them.
# shellcheck shell=bash

# _mxf_fetch_paths PREFIX PATH: completes the path, after the prefix. Readline completes what stands after the last of
# the characters at which it breaks words, of which the colon is one; so the words that are answered begin there.
_mxf_fetch_paths() {
  local path
  while IFS= read -r path; do
    if [ -d "$path" ]; then
      COMPREPLY+=("$1$path/")
    else
      COMPREPLY+=("$1$path")
    fi
  done < <(compgen -f -- "$2")
  compopt -o nospace -o filenames 2>/dev/null || true
}

# _mxf_fetch_source WORD: completes the path of a source that has its form and numbers; fails if the word is none
_mxf_fetch_source() {
  local word=$1 path behind=''
  # What stands before the last colon is no part of the word that readline replaces.
  case $COMP_WORDBREAKS in *:*) ;; *) behind=${word%:*}: ;; esac
  case $word in
    cat:*) path=${word#cat:} ;;
    slice:*:*:*) path=${word#*:*:*:} ;;
    at:*:* | range:*:*) path=${word#*:*:} ;;
    at:* | range:* | slice:*) return 0 ;;
    *) return 1 ;;
  esac
  _mxf_fetch_paths "${behind:+${word%"$path"}}" "$path"
}

# _mxf_fetch_options COMMAND: prints the options of a command
_mxf_fetch_options() {
  local units='--from --to --index'
  echo '--into --most --jobs --timeout --header --help'
  case $1 in
    units) echo "$units" ;;
    clip) echo "$units --out --sparse --exact --force" ;;
  esac
}

_mxf_fetch() {
  local line=${COMP_LINE:0:COMP_POINT} word before
  # The words as the shell sees them, when a colon breaks none.
  local -a words
  read -ra words <<<"$line"
  case $line in *[[:space:]]) words+=('') ;; esac
  word=${words[-1]} before=${words[-2]-}
  COMPREPLY=()
  if [ "${#words[@]}" -le 2 ]; then
    mapfile -t COMPREPLY < <(compgen -W 'look units clip whole --help' -- "$word")
    return
  fi
  case $before in
    --into | --out | --sparse) _mxf_fetch_paths '' "$word" && return ;;
    --most | --jobs | --timeout | --header | --from | --to | --index) return ;;
  esac
  case ${#words[@]}:$word in
    *:-*) ;;
    3:cmd:* | 3:http:* | 3:https:*) return ;;
    3:*)
      _mxf_fetch_paths '' "$word"
      mapfile -t -O "${#COMPREPLY[@]}" COMPREPLY < <(compgen -W 'http:// https:// cmd:' -- "$word")
      return
      ;;
    *) _mxf_fetch_source "$word" && return ;;
  esac
  local forms=''
  case ${words[1]} in look | units) forms='at: range: slice: cat:' ;; esac
  mapfile -t COMPREPLY < <(compgen -W "$(_mxf_fetch_options "${words[1]}") $forms" -- "$word")
  case ${COMPREPLY[0]-} in at: | range: | slice: | cat:) compopt -o nospace 2>/dev/null ;; esac
}

complete -F _mxf_fetch mxf_fetch
