# A copy of the repository's scripts in which nothing is proved, for the tests of the launcher and of ./install. Its
# crates have their sources, and commands of its own are in the toolchain's place.
#
# shellcheck shell=bash disable=SC2154

# The commands that the scripts use; no other is found there, and no `rt` but the one that is made here.
tools=(basename bash cat chmod cp cut dirname env find ln mkdir mktemp mv readlink rm rmdir sed sleep sort tail tee touch wc)

# make_copy: makes the copy, in `copy`, and the folders of commands: `plain` without `rt`, and `stub` with it.
#
# `rt doc` leads to a folder with `rattle` and `rattle-link`. These write each call to the file `calls`: the crate, and their
# arguments. A library that is built is an empty folder, and a program is the file `proved` of the copy, without which that
# fails. A crate fails that the file `unproved` names.
make_copy() {
  local it
  copy=$scratch/copy plain=$scratch/plain stub=$scratch/stub
  export STUB_COPY=$copy
  mkdir "$copy" "$plain" "$stub"
  # Few of the proofs, since each crate that is proved gets copies of those below it.
  tar -C "$root" --exclude=out --exclude=mutants --exclude='proofs/[!L]*' -cf - bin languages install tools \
    docs/man LICENSE-APACHE LICENSE-MIT examples crates.txt HANDLES bindings/c crates | tar -C "$copy" -xf -
  find "$copy" -type f -exec touch -d '2 hours ago' {} +
  for it in "${tools[@]}"; do
    ln -s "$(command -v "$it")" "$plain/$it"
  done
  # the interpreter itself, since its command may be a script that needs others
  ln -s "$(python3 -c 'import sys; print(sys.executable)')" "$plain/python3"
  mkdir -p "$stub/kit/bin"
  cat >"$stub/rt" <<STUB
#!/usr/bin/env bash
echo "$stub/kit/START-HERE.md"
STUB
  cat >"$stub/kit/bin/rattle" <<'STUB'
#!/usr/bin/env bash
top=$STUB_COPY
name=$(basename "$PWD") to=${!#}
[ "${0##*/}" = rattle-link ] || echo "$name: $*" >>"$top/calls"
! grep -qsx "$name" "$top/unproved" || { echo "$name: not proved"; exit 1; }
case ${0##*/}:$to in
  rattle:*.rlib) mkdir -p "$to" ;;
  rattle:*) cp "$top/proved" "$to" ;;
  rattle-link:*) cp "out/$name.o" "out/$name" && chmod 755 "out/$name" ;;
esac
STUB
  ln -s rattle "$stub/kit/bin/rattle-link"
  chmod 755 "$stub/rt" "$stub/kit/bin/rattle"
  ln -s "$(command -v grep)" "$stub/grep"
  : >"$copy/calls"
}

# program_at FILE NAME: makes a program that writes its name, which is words of a shell, its arguments, and its input. With
# an argument `message` it writes `message` to standard error. If its last argument is a number, that is its exit status.
# For --help it writes a usage.
program_at() {
  mkdir -p "$(dirname "$1")"
  cat >"$1" <<PROGRAM
#!/usr/bin/env bash
[ "\${1-}" != --help ] || { echo "usage: \${0##*/} [FILE..]"; exit; }
printf %s "$2"
printf ' [%s]' "\$@"
printf ' %s\n' "\$(cat)"
[[ " \$* " != *' message '* ]] || echo message >&2
[[ ! \${!#} =~ ^[0-9]\$ ]] || exit "\${!#}"
PROGRAM
  chmod 755 "$1"
}

# called_with PATH ARGUMENT..: runs a command of the copy with that PATH, on the input in `input`. It leaves `status`,
# `output`, `message` and `calls`, the calls of the stub.
called_with() {
  local path=$1
  shift
  : >"$copy/calls"
  status=0
  printf '%s' "${input-}" | PATH=$path "$@" >"$scratch/output" 2>"$scratch/message" || status=$?
  output=$(cat "$scratch/output")
  message=$(cat "$scratch/message")
  calls=$(cat "$copy/calls")
}

# expect NAME TEST..: a check, which passes if the test does.
expect() {
  local what=$1
  shift
  if "$@"; then check; else check "$what: status $status, output: $output, message: $message, calls: $calls"; fi
}
