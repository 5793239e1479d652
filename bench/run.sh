#!/bin/sh
# Builds the proved planner as a static library, then the benchmark for release at four places 16 bytes apart, and runs
# each; at the end the mean of each set's ratios.
set -e
cd "$(dirname "$0")/../crates/engine"
rt lib
cd ../../bench
said=$(mktemp)
trap 'rm -f "$said"' EXIT
for shift in 0 16 32 48; do
    echo "functions $shift bytes on"
    BENCH_SHIFT=$shift cargo build --release --offline -q
    target/release/bench "$@" >"$said.one" || { cat "$said.one"; exit 1; }
    cat "$said.one"
    cat "$said.one" >>"$said"
    rm -f "$said.one"
done
awk -F: '/ratio/ { n = split($2, w, " "); if (!($1 in sum)) order[++sets] = $1; sum[$1] += w[n]; runs[$1]++ }
    END { for (i = 1; i <= sets; i++) printf "%s: mean ratio %.2f\n", order[i], sum[order[i]] / runs[order[i]] }' "$said"
