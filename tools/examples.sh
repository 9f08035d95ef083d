#!/usr/bin/env bash
# Runs each sheet below examples/ through ./convert and compares what it prints with the stored answer, byte for byte. A
# sheet with a stored sentence is refused: that is what stands on the standard error, and the status is 1. Of any other
# nothing stands there, the status is 0, and its page tells the stored name of each binding; that these are the ones that
# are made, tools/host.sh sees to.
set -u
cd "$(dirname "$0")/.." || exit 1
count=0
differ=0
got=$(mktemp)
said=$(mktemp)
trap 'rm -f "$got" "$said"' EXIT

# Whether a folder has a name for each binding of its answer, and each of them stands in its page.
names_told() {
  local folder=$1 counts name
  counts=$(sed -n 2p "$folder/answer")
  [[ $(wc -l <"$folder/names") -eq $((${counts##* } + 1)) ]] || return 1
  while read -r _ name; do
    grep -qF -- "| \`$name\` |" "$folder/script.md" || return 1
  done < <(tail -n +2 "$folder/names")
}

for sheet in examples/*/sheet; do
  folder=$(dirname "$sheet")
  count=$((count + 1))
  wanted=0
  sentence=/dev/null
  if [[ -e $folder/sentence ]]; then
    wanted=1
    sentence=$folder/sentence
  elif ! names_told "$folder"; then
    echo "its names differ: $folder"
    differ=$((differ + 1))
  fi
  ./convert "$sheet" >"$got" 2>"$said"
  status=$?
  if [[ $status -ne $wanted || ! -s $folder/script.md ]] || ! cmp -s "$got" "$folder/answer" || ! cmp -s "$said" "$sentence"; then
    echo "differs: $folder"
    differ=$((differ + 1))
  fi
done
echo "$count examples, $differ differ"
[[ $count -ge 7 && $differ -eq 0 ]]
