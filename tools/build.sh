#!/usr/bin/env bash
# Builds what is run and what is linked, of crates that are proved first:
#
#   build.sh              target/bin/convert, target/bin/replay_convert and target/staticlib/libthawcopper.a
#   build.sh NAME..       these: a program of crates/, or `archive`
#
# and, straight after an `rt ci` that passed in this checkout, of what it left there:
#
#   proved-programs       the two programs
#   proved-archive        the archive. This is right only where no crate had an out/ before that run: where one had, `rt ci`
#                         puts the libraries of before back in the end
#
# A failure ends it with a status that is not 0.
set -eu
cd "$(dirname "$0")/.."
staticlib=target/staticlib

# Puts a file in its place, also where that one is being run.
place() {
  mkdir -p "$(dirname "$2")"
  cp "$1" "$2.new"
  mv -f "$2.new" "$2"
}

# Proves a program and what it stands on, builds it, and runs it once on its stored input.
program() {
  local made=crates/$1/out/$1
  rm -f "$made"
  (cd "crates/$1" && exec rt run <stdin >/dev/null)
  if [[ ! -x $made ]]; then
    echo "build.sh: rt run made no $made" >&2
    return 1
  fi
  place "$made" "target/bin/$1"
}

# The same for the static library, whose exports are the C entries.
archive() {
  (cd crates/thawcopper_c && exec rt lib)
  place crates/thawcopper_c/out/libthawcopper_c.a "$staticlib/libthawcopper.a"
}

# The archive of the libraries that `rt ci` left. It makes none itself, and `rt lib` would prove them all anew.
archive_of_proved() {
  local kit crate words=()
  kit=$(dirname "$(rt doc)")
  for crate in $(sed -n 's/^thawcopper_c staticlib://p' crates.txt); do
    words+=(--extern "$crate=../$crate/out/rlib/$crate.rlib")
  done
  for crate in crates/*/out/rlib; do
    words+=(-L "dependency=../../$crate")
  done
  (cd crates/thawcopper_c && exec "$kit/bin/rattle" build --crate-name thawcopper_c --crate-type staticlib src/lib.rt \
    --extern "core=$kit/rlibs/core.rlib" --extern "std=$kit/rlibs/std.rlib" -L "dependency=$kit/rlibs" "${words[@]}" \
    --antt-project "$kit/rattle/logic/antt-project.json" --logic-built "$kit/logic_built" \
    --toolchain "$kit/toolchain" --backend llvm -o out/libthawcopper_c.a)
  place crates/thawcopper_c/out/libthawcopper_c.a "$staticlib/libthawcopper.a"
}

programs=(convert replay_convert)
if [[ $# -eq 0 ]]; then
  set -- "${programs[@]}" archive
fi
for what; do
  case $what in
    archive) archive ;;
    proved-archive) archive_of_proved ;;
    proved-programs)
      for name in "${programs[@]}"; do
        place "crates/$name/out/$name" "target/bin/$name"
      done
      ;;
    *)
      if [[ ! -e crates/$what/src/main.rt ]]; then
        echo "build.sh: crates/ has no program $what" >&2
        exit 2
      fi
      program "$what"
      ;;
  esac
done
