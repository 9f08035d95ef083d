#!/usr/bin/env bash
# The Rust host: builds it, tests it, and compares the library with the reference.
#
#   host.sh                        unit tests, doc tests, the C header, the names of the examples, the stored conversions, the
#                                  fixed seed's comparison
#   host.sh long SEED MINUTES      the comparison of random tables, from another seed
#   host.sh more                   the comparison of all tables, a size up
#   host.sh sample                 writes host/sample anew, from the reference's answers
#   host.sh bench [cleared] [ample]    the library beside the reference and beside a plain copy
#   host.sh bench names            made names and base text beside the reference
#   host.sh bench profile SHAPE MODE    the library alone, for a profiler
#
# The archive is built by tools/build.sh where it is missing, and for a benchmark. Cargo is used where it is there, without a registry; else rustc and
# rustdoc alone. HOST_NO_CARGO=1 takes the second way. A failure ends it with a status that is not 0.
set -eu
cd "$(dirname "$0")/.."

archive=target/staticlib
out=target/host
sample=host/sample

if [[ ! -e $archive/libthawcopper.a || ${1:-} == bench ]]; then
  bash tools/build.sh archive >/dev/null
fi
mkdir -p "$out"

with_cargo() {
  [[ -z ${HOST_NO_CARGO:-} ]] && command -v cargo >/dev/null 2>&1
}

# Cargo without a network, with what it builds below target/.
offline_cargo() {
  local what=$1
  shift
  CARGO_NET_OFFLINE=true cargo "$what" --manifest-path host/Cargo.toml --target-dir "$out" --offline --release --quiet "$@"
}

# A crate by rustc alone: its kind (lib or bin), its name, its file, and further options.
by_rustc() {
  local kind=$1 name=$2 file=$3
  shift 3
  rustc --edition 2021 -O --crate-type "$kind" --crate-name "$name" --out-dir "$out/rustc" -L "native=$archive" "$@" "$file"
}

# The test binary of a file, built and run.
test_by_rustc() {
  local name=$1 file=$2
  shift 2
  CARGO_MANIFEST_DIR=$PWD/host rustc --edition 2021 -O --test --crate-name "$name" -o "$out/rustc/$name" \
    -L "native=$archive" "$@" "$file" && "$out/rustc/$name" --quiet
}

# A program, compare or bench, with the two libraries that it needs.
build_by_rustc() {
  local program=$1 lib=$out/rustc
  mkdir -p "$lib"
  by_rustc lib thawcopper host/src/lib.rs -l static=thawcopper
  by_rustc lib thawcopper_reference host/reference/src/lib.rs
  by_rustc bin "$program" "host/$program/src/main.rs" --extern "thawcopper=$lib/libthawcopper.rlib" \
    --extern "thawcopper_reference=$lib/libthawcopper_reference.rlib"
}

program=compare
if [[ ${1:-} == bench ]]; then
  program=bench
fi
if with_cargo; then
  offline_cargo build --package "thawcopper-$program"
  bin=$out/release
else
  build_by_rustc "$program"
  bin=$out/rustc
fi

case ${1:-} in
  long | more) exec "$bin/compare" "$@" ;;
  sample)
    mkdir -p "$(dirname "$sample")"
    exec "$bin/compare" sample "$sample"
    ;;
  bench)
    shift
    exec "$bin/bench" "$@"
    ;;
  '') ;;
  *)
    echo "usage: host.sh [long SEED MINUTES | more | sample | bench [cleared] [ample] | bench names | bench profile SHAPE MODE]" >&2
    exit 2
    ;;
esac

if ! command -v cc >/dev/null 2>&1; then
  echo "SKIPPED: cc is not here, so include/thawcopper.h is not compiled" >&2
fi
if with_cargo; then
  offline_cargo test --package thawcopper --package thawcopper-reference
  offline_cargo build --package thawcopper --examples
  examples=$bin/examples
else
  test_by_rustc thawcopper_test host/src/lib.rs -l static=thawcopper
  test_by_rustc reference_test host/reference/src/lib.rs
  test_by_rustc header_test host/tests/header.rs
  rustdoc --edition 2021 --test --crate-name thawcopper -L "native=$archive" \
    --extern "thawcopper=$bin/libthawcopper.rlib" host/src/lib.rs
  for example in sheet names; do
    by_rustc bin "$example" "host/examples/$example.rs" --extern "thawcopper=$bin/libthawcopper.rlib"
  done
  examples=$bin
fi

# The names that are made for the sheets below examples/: as stored, and none where the sheet is refused.
for sheet in examples/*/sheet; do
  stored=$(dirname "$sheet")/names
  if [[ -e $stored ]]; then
    "$examples/names" "$sheet" | cmp - "$stored"
  elif "$examples/names" "$sheet" >/dev/null 2>&1; then
    echo "$sheet is not refused, and has no stored names" >&2
    exit 1
  fi
done
# And host/README.md shows what the first example prints.
"$examples/sheet" | cmp - <(sed -n '/^```text$/,/^```$/p' host/README.md | sed '1d;$d')

# The stored conversions against the reference: those of the repository's model, and the reference's own.
"$bin/compare" stored crates/replay_convert/stdin
if [[ -e $sample ]]; then
  "$bin/compare" sample "$out/sample"
  cmp "$out/sample" "$sample"
fi
"$bin/compare"
