#!/usr/bin/env bash
# Holds each worked pair (tools/rows/pairs) against the built checker: one without shapes has to agree, one with shapes to meet the
# clauses on lowered programs, so that at most its meaning differs. Where node is there, `tools/pairs.js` then changes each pair, and
# each changed one has to differ, and so has what `tools/wrong.js` makes of some, as a wrong lowering would.
#
#   tools/pairs.sh [PROGRAM]
set -u
cd "$(dirname "$0")/.." || exit 2
program=${1:-crates/check_cli/out/check_cli}
pairs=tools/rows/pairs
meaning='^differs: (Program|Function|Class|Construction|Private|Declaration|Export) at [0-9]+$'
right=0 wrong=0
for source in "$pairs"/*.source.json; do
  name=$(basename "$source" .source.json)
  mapfile -t arguments < "$pairs/$name.args"
  answer=$({ printf '['; cat "$source"; printf ','; cat "$pairs/$name.output.json"; printf ']'; } | "$program" "${arguments[@]}")
  if [[ $answer == agreed ]] || { ! grep -q '"outside":\[\]' "$pairs/$name.output.json" && [[ $answer =~ $meaning ]]; }; then
    right=$((right + 1))
  else
    wrong=$((wrong + 1))
    echo "$name: $answer"
  fi
done
echo "pairs: $right as wanted, $wrong not"
[[ $wrong == 0 && $right -gt 0 ]] || exit 1
if command -v node > /dev/null; then node tools/pairs.js "$program" --changes && node tools/wrong.js "$program"; fi
