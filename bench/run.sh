#!/usr/bin/env bash
# Builds the benchmarks of check and of replay against plain Rust and runs them.
set -eu
cd "$(dirname "$0")/.."
kit=$(dirname "$(tools/c-library)")
for bench in check replay; do
    rustc -O --edition 2024 -A dead_code -L target/staticlib -L "$kit" "bench/$bench.rs" -o "target/bench-$bench"
done
target/bench-check bench/plans/*.streams
target/bench-replay

# the engine alone: a release, a pick, a settle and a calm each turn
work="$(mktemp -d)"
trap 'rm -rf "$work"' EXIT
tools/beside "$work" pace anyhow
cp bench/pace.txt "$work/crates/pace/src/main.rt"
cd "$work/crates/pace"
echo 0 | rt run > "$work/log" 2>&1 || { cat "$work/log"; exit 1; }
turns=10000000
start=$(date +%s%N)
echo "$turns" | out/pace
end=$(date +%s%N)
echo "engine alone, 32 streams: $((4 * turns * 1000 / (end - start))) million calls a second"
