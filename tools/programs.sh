# Functions that the launcher, ./install and the scripts share: which programs are proved and built, and how to do it.
# A script that reads this has set `root`, the folder of the repository, and `called`, its own name.
# shellcheck shell=bash disable=SC2154

# The programs. The first one's name is that of the launcher, and the launchers of the others read it.
programs=(hyphenate hyphenate-canonical hyphenate-convert hyphenate-explain hyphenate-html hyphenate-lines hyphenate-text)

# The programs that are scripts in Python, and the files of languages/ and of tools/ that they need where they are installed.
scripts=(hyphenate-epub hyphenate-languages)
of_languages=(list variants listed.py making.py)
of_tools=(VERSION scripts.py)

# crate_of NAME: the crate of a program, in `crate`; libhyphenation is the static library for C. All programs are one file,
# which does the work of the one by whose name it is called.
crate_of() {
  case $1 in
    hyphenate | hyphenate-*) crate=hyphenate_program ;;
    libhyphenation) crate=hyphenation_c ;;
    *) crate=$1 ;;
  esac
}

# file_of NAME: what is built for a program, the static library or the tests of tests_libraries, in `built`. The name by which it
# is called is in `file`: for a program that is a link. They are there once that is built.
file_of() {
  crate_of "$1"
  built=$root/crates/$crate/out/$crate
  [ "$1" != libhyphenation ] || built=$root/crates/$crate/out/lib$crate.a
  [ "$1" != tests_libraries ] || built+=_tests
  file=$built
  if [ "$crate" = hyphenate_program ]; then
    # rt takes no link in out/
    file=$root/.programs/$1
    [ ! -f "$built" ] || [ -e "$file" ] || { mkdir -p "$root/.programs" && ln -sf "../crates/$crate/out/$crate" "$file"; }
  fi
}

# The crates that each crate uses, by crates.txt. Those of the toolchain have no line there.
declare -A uses=()
while IFS=: read -r left right; do
  case $left in
    '' | '#'*) continue ;;
  esac
  uses[${left%% *}]=$right
done <"$root/crates.txt"

# order_of CRATE..: adds the crates and all that they use to the list `order`, each after those that it uses.
order_of() {
  local it below
  for it; do
    [[ -v "uses[$it]" && " ${order[*]-} " != *" $it "* ]] || continue
    read -ra below <<<"${uses[$it]}"
    order_of "${below[@]}"
    order+=("$it")
  done
}

# is_current NAME: whether what is built for the name is there, and no source of it is newer.
is_current() {
  local -a order=()
  local newer
  file_of "$1"
  [ -f "$built" ] || return 1
  order_of "$crate"
  newer=$(find "$root/crates.txt" "${order[@]/#/$root/crates/}" -name out -prune -o \
    -type f \( -name '*.rt' -o -name '*.antt' -o -name crates.txt \) -newer "$built" -print -quit)
  [ -z "$newer" ]
}

# has_toolchain: whether there is a command rt; else says that there is none.
has_toolchain() {
  command -v rt >/dev/null && return
  echo "$called: the toolchain is missing: there is no command rt" >&2
  return 1
}

# prove NAME..: proves and builds the programs that are not current, and all that they use, by `tools/prove`; libhyphenation may
# be among the names. It returns 1 where one is not proved and built. Crates that do not use one another are proved side by
# side, at most `at_once`, or as many as processors and memory allow.
prove() {
  local -a missing=()
  local it status=0
  for it; do
    is_current "$it" || missing+=("$it")
  done
  [ ${#missing[@]} != 0 ] || return 0
  has_toolchain || return 1
  echo "$called: proving and building ${missing[*]}; from nothing, all programs took $INSTALL" >&2
  # it runs in the background, so that a signal to the script reaches it at once
  "$root/tools/prove" --called "$called" ${at_once:+--jobs "$at_once"} "${missing[@]}" </dev/null &
  proving=$!
  trap 'kill "$proving"; wait "$proving" || exit 130' INT
  trap 'kill "$proving"; wait "$proving" || exit 143' TERM
  wait "$proving" || status=1
  trap - INT TERM
  return $status
}

# shellcheck source=tools/proof-times
. "$root/tools/proof-times"
