#!/bin/sh
# Machine instructions a step of the built program, over mains of three lengths. A step is to cost fewer than 1,000, and
# the same within a tenth whatever the number of steps and the length of main. It runs outside the gate, and is skipped
# where valgrind or python3 is missing.
set -eu
here=$(cd "$(dirname "$0")" && pwd)
program=$here/../crates/ti_host/out/ti_host
for tool in valgrind python3; do
    if ! command -v "$tool" >/dev/null 2>&1; then
        echo "steps.sh: skipped, since $tool is missing"
        exit 0
    fi
done
[ -x "$program" ] || "$here/../fezhalon" >/dev/null 2>&1 || true
folder=$(mktemp -d)
trap 'rm -rf "$folder"' EXIT
cd "$folder"
for repeats in 1000 4000 7281; do
    python3 "$here/long_main.py" "$repeats" Long.class
    valgrind --tool=callgrind --callgrind-out-file=counts.out "$program" run --main Long --class Long.class >report.txt 2>valgrind.txt
    steps=$(sed -n 's/^steps //p' report.txt)
    bytes=$(sed -n 's/^output //p' report.txt)
    total=$(sed -n 's/.*Collected : \([0-9]*\).*/\1/p' valgrind.txt)
    # 11 steps beside the instructions, of which each repeat has five and the end one; each repeat prints two bytes
    if [ "$steps" -ne $((5 * repeats + 12)) ] || [ "$bytes" -ne $((2 * repeats)) ]; then
        echo "steps.sh: $repeats repeats made $steps steps and $bytes bytes of output"
        exit 1
    fi
    echo "$repeats repeats: $total instructions for $steps steps, $((total / steps)) a step"
done
