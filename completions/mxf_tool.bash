# Completion of mxf_tool for bash: its commands and options, and the forms of a source with the paths after them.
# shellcheck shell=bash

# _mxf_tool_paths PREFIX PATH: completes the path, after the prefix. Readline completes what stands after the last of
# the characters at which it breaks words, of which the colon is one; so the words that are answered begin there.
_mxf_tool_paths() {
  local path
  while IFS= read -r path; do
    if [ -d "$path" ]; then
      COMPREPLY+=("$1$path/")
    else
      COMPREPLY+=("$1$path")
    fi
  done < <(compgen -f -- "$2")
  compopt -o nospace -o filenames 2>/dev/null || true
}

_mxf_tool() {
  local line=${COMP_LINE:0:COMP_POINT} word before command='' one
  # The words as the shell sees them, when a colon breaks none.
  local -a words
  read -ra words <<<"$line"
  case $line in
    *[[:space:]]) word='' before=${words[-1]} ;;
    *) word=${words[-1]} before=${words[-2]-} ;;
  esac
  for one in "${words[@]:1}"; do
    case $one in describe | show | check | locate | units | plan | map | verify | sources | find | join | renew | help) command=$one && break ;; esac
  done
  [ "$command" != "$word" ] || command=''
  COMPREPLY=()
  case $before in
    --out | --sources | --recordings) _mxf_tool_paths '' "$word" && return ;;
    --hints) mapfile -t COMPREPLY < <(compgen -W 'auto always never' -- "$word") && return ;;
    --index | --unit | --from | --to | --columns | --rows) return ;;
  esac
  # What stands before the last colon is no part of the word that readline replaces.
  local behind=''
  case $COMP_WORDBREAKS in *:*) ;; *) behind=${word%:*}: ;; esac
  case $word in
    cat:* | at:*:* | range:*:* | slice:*:*:*)
      case $word in
        cat:*) local path=${word#cat:} ;;
        slice:*) local path=${word#*:*:*:} ;;
        *) local path=${word#*:*:} ;;
      esac
      _mxf_tool_paths "${behind:+${word%"$path"}}" "$path"
      return
      ;;
    at:* | range:* | slice:*) return ;;
  esac
  local options='--help'
  case $command in
    '') options='describe show check locate units plan map verify sources find join renew help --help --version' ;;
    help) options='describe show check locate units plan map verify sources find join renew' ;;
    describe | show) options='at: range: slice: cat: --skim --json --hints --sources --help' ;;
    check) options='at: range: slice: cat: --doubts --skim --json --hints --sources --help' ;;
    sources) options='at: range: slice: cat: --json --hints --sources --help' ;;
    map) options='at: range: slice: cat: --columns --rows --extents --skim --json --hints --sources --help' ;;
    locate) options='at: range: slice: cat: --index --unit --skim --json --hints --sources --help' ;;
    units) options='at: range: slice: cat: --index --from --to --timecode --skim --json --hints --sources --help' ;;
    plan) options='at: range: slice: cat: --index --from --to --skim --json --hints --sources --help' ;;
    verify) options='at: range: slice: cat: --against --whole --index --from --to --timecode --json --hints --sources --help' ;;
    find) options='at: range: slice: cat: --in --recordings --json --hints --sources --help' ;;
    join) options='at: range: slice: cat: --out --strict --dry-run --skim --json --hints --sources --help' ;;
    renew) options='at: range: slice: cat: --out --old --strict --drop --dry-run --json --hints --sources --help' ;;
  esac
  mapfile -t COMPREPLY < <(compgen -W "$options" -- "$word")
  case ${COMPREPLY[0]-} in at: | range: | slice: | cat:) compopt -o nospace 2>/dev/null ;; esac
}

complete -F _mxf_tool mxf_tool
