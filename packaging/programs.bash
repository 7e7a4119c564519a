# shellcheck shell=bash disable=SC2034,SC2154
# The two programs of mxf_tool that can be built here, for scripts that source this file: where they lie, whether they are
# current, and how they are made. `top` is the folder of the repository.
# - proved: what the kit's gate has proved and built.
# - checked: the same source with run-time checks, unproved. The kit's `rt try` compiles it so. Its file has the same name,
#   which stands in what it says of wrong words.
readonly CANNOT_BUILD=69
readonly OTHER_KIT=76
folder=$top/crates/mxf_tool/out
declare -A program=([proved]=$folder/mxf_tool [checked]=$folder/checked/mxf_tool)
builder=$top/packaging/build_program

tell() { echo "mxf_tool: $1" >&2; }

# find_parts: parts is the crate mxf_tool and all crates of this repository that it stands on
find_parts() {
  local crate libraries
  local -A stands_on told=()
  while IFS=: read -r crate libraries; do
    [ -n "$crate" ] && stands_on[$crate]=$libraries
  done <"$top/crates.txt"
  parts=()
  add_parts mxf_tool
}

# add_parts CRATE: adds it and those that it stands on to parts, but for those that are there
add_parts() {
  local crate
  told[$1]=yes
  [ -d "$top/crates/$1" ] || return 0
  for crate in ${stands_on[$1]-}; do
    [ -n "${told[$crate]-}" ] || add_parts "$crate"
  done
  parts+=("$1")
}

# is_current KIND: the program is there, and no source of it has changed since its build began. No proof and no
# definition is a source of the checked program. Each call looks, so no other program is started but one.
is_current() {
  local parts crate folders built=${program[$1]}.built sources=("$top/crates.txt")
  [ -x "${program[$1]}" ] && [ -e "$built" ] || return 1
  folders=(src specs proofs)
  [ "$1" = proved ] || { folders=(src) && sources+=("$builder"); }
  find_parts
  for crate in "${parts[@]}"; do
    for part in "${folders[@]}"; do
      [ -d "$top/crates/$crate/$part" ] && sources+=("$top/crates/$crate/$part")
    done
  done
  [ -z "$(find "${sources[@]}" -newer "$built" -print -quit)" ]
}

# build KIND: makes the program of the kind. A signal that ends this script ends the build first.
build() {
  local building signal
  command -v python3 >/dev/null || { tell "python3 isn't on the PATH; the Rattle kit needs it"; return "$CANNOT_BUILD"; }
  "$builder" "$1" 9>&- &
  building=$!
  for signal in HUP INT TERM; do
    # shellcheck disable=SC2064
    trap "kill $building 2>/dev/null; wait $building; exit $((128 + $(kill -l $signal)))" $signal
  done
  wait $building
  local status=$?
  trap - HUP INT TERM
  return $status
}

# ensure KIND: makes the program of the kind unless it is current. Of two calls at once one builds, and the other waits.
ensure() {
  local status
  ! is_current "$1" || return 0
  if ! { mkdir -p "${program[$1]%/*}" && exec 9>"${program[$1]}.lock"; } 2>/dev/null; then
    tell "nothing can be written to ${program[$1]%/*}"
    return "$CANNOT_BUILD"
  fi
  if ! flock -n 9; then
    tell "waiting for another call that is building the program"
    flock 9
  fi
  is_current "$1" || build "$1"
  status=$?
  exec 9>&-
  return $status
}
