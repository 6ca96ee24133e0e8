#!/usr/bin/env bash
# Builds the bench, which proves it and all below it, and runs it on a script: the stored example, or the file named.
set -eu
top=$(cd "$(dirname "$0")" && pwd)
script=$(realpath "${1:-$top/crates/bench/stdin}")
cd "$top/crates/bench"
log=$(mktemp)
trap 'rm -f "$log"' EXIT
# the program prints to standard output, and rt what it says of the proof to standard error
rt run <"$script" 2>"$log" || { cat "$log" >&2; exit 1; }
