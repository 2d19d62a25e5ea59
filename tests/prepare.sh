# Functions that the scripts of this folder share: the programs, runs of them with a failing call, and the last line.
#
# shellcheck shell=bash disable=SC2034

set -euo pipefail
root=$(cd "$(dirname "${BASH_SOURCE[0]}")/.." && pwd)
called=$(basename "$0")
scratch=$(mktemp -d)
trap 'rm -rf "$scratch"' EXIT
# shellcheck source=tools/programs.sh
. "$root/tools/programs.sh"

die() {
  echo "$called: $*" >&2
  exit 2
}

# needs PROGRAM..: proves and builds the programs that are not current. With AS_BUILT, as ./test sets it, it ends the
# script instead: ./test takes the programs as they are built, and builds none anew.
needs() {
  local it file crate
  if [ -z "${AS_BUILT-}" ]; then
    prove "$@" || die "the programs are not there"
    return
  fi
  for it; do
    is_current "$it" || die "$it: there is no $file, or a source is newer"
  done
}

# program NAME: the file of a program that was built.
program() {
  local file crate
  file_of "$1"
  echo "$file"
}

# compiler: the command of a C compiler: that of CC, else the toolchain's own, else cc.
compiler() {
  local page
  if [ -n "${CC-}" ]; then
    echo "$CC"
  elif page=$(rt doc 2>/dev/null) && [ -x "$(dirname "$page")/toolchain/bin/clang" ]; then
    echo "$(dirname "$page")/toolchain/bin/clang"
  elif command -v cc >/dev/null; then
    echo cc
  else
    return 1
  fi
}

# Builds the library that makes calls fail.
build_faults() {
  local command
  command=$(compiler) || die "there is no C compiler: neither one in CC, nor the toolchain's, nor cc"
  # shellcheck disable=SC2086
  $command -O2 -shared -fPIC -nostdlib -o "$scratch/faults.so" "$root/tests/faults.c" ||
    die "tests/faults.c was not built by $command"
}

# with FAULT PROGRAM ARGUMENT..: runs the program with a failing call. It leaves its exit status in `status`, its output
# in `output` and `message`, and the report in `counted`, `touched`, `touched_at`, `touched_after` and `kept`.
with() {
  local fault=$1
  shift
  status=0
  rm -f "$scratch/report"
  FAULT=$fault REPORT=$scratch/report LD_PRELOAD=$scratch/faults.so \
    "$@" >"$scratch/output" 2>"$scratch/message" || status=$?
  read -r counted touched touched_at touched_after kept <"$scratch/report" || die "no report of $*"
  output=$(cat "$scratch/output" && echo .)
  output=${output%.}
  message=$(cat "$scratch/message")
}

# check [TEXT]: counts a check that passed or, with a text that says why, one that failed.
passed=0 failed=0
check() {
  if [ $# = 0 ]; then
    passed=$((passed + 1))
  else
    failed=$((failed + 1))
    echo "WRONG: $*"
  fi
}

# each_ran: a check that the rows that ran, by the list `ran`, are those that standard input names, a line each.
ran=()
each_ran() {
  local differ
  differ=$(diff <(LC_ALL=C sort) <(printf '%s\n' "${ran[@]}" | LC_ALL=C sort) |
    sed -n 's/^< /did not run: /p; s/^> /ran, and is not in the list: /p') || true
  if [ -z "$differ" ]; then check; else check "$differ"; fi
}

# end: prints how many checks passed, and ends the script. The status is 1 if one failed.
end() {
  echo "$passed passed, $failed failed"
  [ $failed = 0 ] || exit 1
  exit 0
}
