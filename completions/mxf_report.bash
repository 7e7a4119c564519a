# Completion of mxf_report for bash: its options, and the forms of a source with the paths after them.
# shellcheck shell=bash

# _mxf_report_paths PREFIX PATH: completes the path, after the prefix. Readline completes what stands after the last of
# the characters at which it breaks words, of which the colon is one; so the words that are answered begin there.
_mxf_report_paths() {
  local path
  while IFS= read -r path; do
    if [ -d "$path" ]; then
      COMPREPLY+=("$1$path/")
    else
      COMPREPLY+=("$1$path")
    fi
  done < <(compgen -f -- "$2")
  compopt -o nospace -o filenames 2>/dev/null || true
}

_mxf_report() {
  local line=${COMP_LINE:0:COMP_POINT} word before path
  # The words as the shell sees them, when a colon breaks none.
  local -a words
  read -ra words <<<"$line"
  case $line in
    *[[:space:]]) word='' before=${words[-1]} ;;
    *) word=${words[-1]} before=${words[-2]-} ;;
  esac
  COMPREPLY=()
  case $before in
    --out | --sources | --archive) _mxf_report_paths '' "$word" && return ;;
    --title | --index | --from | --to) return ;;
  esac
  # What stands before the last colon is no part of the word that readline replaces.
  local behind=''
  case $COMP_WORDBREAKS in *:*) ;; *) behind=${word%:*}: ;; esac
  case $word in
    cat:* | at:*:* | range:*:* | slice:*:*:*)
      case $word in
        cat:*) path=${word#cat:} ;;
        slice:*) path=${word#*:*:*:} ;;
        *) path=${word#*:*:} ;;
      esac
      _mxf_report_paths "${behind:+${word%"$path"}}" "$path"
      return
      ;;
    at:* | range:* | slice:*) return ;;
  esac
  local options='at: range: slice: cat: --out --title --index --from --to --against --read --skim --sources --archive --json --compare --help'
  [ "$before" != --against ] || options='at: range: slice: cat:'
  mapfile -t COMPREPLY < <(compgen -W "$options" -- "$word")
  case ${COMPREPLY[0]-} in at: | range: | slice: | cat:) compopt -o nospace 2>/dev/null ;; esac
}

complete -F _mxf_report mxf_report
