#!/usr/bin/env bash
# Tries the must-fail edits of a crate that stand outside the gate (crates/NAME/edits): the prover must refuse each. Goes on from what
# runs of the gate kept on this machine (docs/TIMES.md).
# usage: tools/edits.sh NAME..
set -e
cd "$(dirname "$0")/.."
copy=$(mktemp -d)
trap 'rm -rf "$copy"' EXIT
git clone -q . "$copy"
for name in "$@"; do mkdir -p "$copy/crates/$name/must-fail" && cp "$copy/crates/$name/edits/"*.edit "$copy/crates/$name/must-fail/"; done
cd "$copy" && rt ci "$@"
