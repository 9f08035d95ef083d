#!/usr/bin/env bash
# Whether the archive for C asks a host for memcpy and memset alone: no other name in it is left undefined. A failure ends it with
# a status that is not 0.
set -u
cd "$(dirname "$0")/.." || exit 1
archive=target/staticlib/libthawcopper.a

named=$(nm -u "$archive") || exit 1
asked=$(awk '$1 == "U" || $1 == "w" || $1 == "v" { print $2 }' <<<"$named" | sort -u)
echo "$archive asks for" $asked
others=$(grep -vxE 'memcpy|memset' <<<"$asked")
if [[ -n $others ]]; then
  echo "symbols.sh: $archive asks for more than memcpy and memset:" $others >&2
  exit 1
fi
