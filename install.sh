#!/usr/bin/env bash
# Installs the program, mxf_report, mxf_archive and mxf_fetch, their man pages, their completions for bash, the guides and the
# examples for an archive:
# install.sh [--from FOLDER | --checked] [PREFIX], by default below /usr/local. With --from they are those of a folder that
# packaging/release made, whose sums are checked; the kit isn't needed then. Without it the proved program has to be
# built. --checked installs the unproved one with run-time checks, which is made first if need be; its version line ends
# in `checked`. What stands there under these names is replaced.
set -eu
unset CDPATH
top=$(cd "$(dirname "${BASH_SOURCE[0]}")" && pwd)
from=
kind=proved
if [ "${1-}" = --from ] && [ $# -gt 1 ]; then
  from=$2
  shift 2
elif [ "${1-}" = --checked ]; then
  kind=checked
  shift
fi
prefix=${1:-/usr/local}
program=${MXF_TOOL-}
scripts=$top/report
example=$top/examples/archive
pages=$top/docs
completions=$top/completions

if [ $# -gt 1 ] || [ -z "$prefix" ] || [ "${prefix#-}" != "$prefix" ]; then
  echo "usage: install.sh [--from FOLDER | --checked] [PREFIX]" >&2
  exit 2
fi
if [ -n "$from" ]; then
  if ! (cd "$from" && sha256sum --check --strict --quiet SHA256SUMS); then
    echo "install.sh: $from isn't as it was made" >&2
    exit 1
  fi
  program=$from/mxf_tool
  # If the C library is another one, the program that has its own is taken.
  "$program" --version >/dev/null 2>&1 || program=$from/mxf_tool.static
  scripts=$from
  example=$from/examples/archive
  pages=$from
  completions=$from
elif [ -z "$program" ] && ! program=$("$top/packaging/program" $kind); then
  [ $kind = checked ] || echo "install.sh: --checked installs the unproved program, in minutes" >&2
  exit 1
fi
put() { install -D -m "$1" "$2" "$prefix/$3" && printf '%s\n' "$prefix/$3"; }
if [ $kind = checked ]; then
  put 755 "$program" lib/mxf-tool/checked/mxf_tool
  put 755 "$top/packaging/run_checked" lib/mxf-tool/run_checked
  parts=$(cd "$prefix/lib/mxf-tool" && pwd)
  starter=$(mktemp)
  quoted=\'${parts//\'/\'\\\'\'}
  printf '%s\n' '#!/bin/sh' '# Runs the checked program, which is unproved.' "exec $quoted/run_checked' $quoted/checked/mxf_tool' \"\$@\"" >"$starter"
  put 755 "$starter" bin/mxf_tool
  rm "$starter"
else
  put 755 "$program" bin/mxf_tool
  rm -rf "$prefix/lib/mxf-tool/checked" "$prefix/lib/mxf-tool/run_checked"
fi
for name in mxf_report mxf_archive mxf_fetch; do put 755 "$scripts/$name" "bin/$name"; done
while IFS= read -r file; do put 644 "$scripts/$file" "lib/mxf-tool/$file"; done < <(
  cd "$scripts" && find mxf -type f ! -path '*/__pycache__/*' | LC_ALL=C sort)
# Who may not write there would compile the parts at each start.
/usr/bin/python3 -m compileall -q "$prefix/lib/mxf-tool/mxf" ||
  echo "install.sh: the parts of mxf_report, mxf_archive and mxf_fetch aren't compiled" >&2
for name in mxf_tool mxf_report mxf_archive mxf_fetch; do
  put 644 "$pages/$name.1" "share/man/man1/$name.1"
  put 644 "$completions/$name.bash" "share/bash-completion/completions/$name"
done
put 644 "$example/README.md" share/mxf-tool/archive/README.md
for name in side_by_side slurm/run; do put 755 "$example/$name" "share/mxf-tool/archive/$name"; done
for name in GUIDE PAGES FORMATS ARCHIVE; do put 644 "$pages/$name.md" "share/doc/mxf-tool/$name.md"; done
