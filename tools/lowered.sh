#!/usr/bin/env bash
# Lowers the worked sources of tools/rows/lowered.txt with the built program: each output has to be the worked one, byte by byte.
#
#   tools/lowered.sh [PROGRAM]
set -u
cd "$(dirname "$0")/.." || exit 2
program=${1:-crates/lower_cli/out/lower_cli}
pairs=tools/rows/pairs
right=0 wrong=0
while read -r name; do
  mapfile -t arguments < "$pairs/$name.args"
  if "$program" "${arguments[@]}" < "$pairs/$name.source.json" | cmp -s - "$pairs/$name.output.json"; then
    right=$((right + 1))
  else
    wrong=$((wrong + 1))
    echo "$name: another output"
  fi
done < tools/rows/lowered.txt
echo "lowered: $right as worked, $wrong not"
[[ $wrong == 0 && $right -gt 0 ]]
