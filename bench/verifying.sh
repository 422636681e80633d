#!/bin/sh
# Seconds that the built program type_check takes over two methods as long as one may be: 65,535 bytes, 1,000 handlers and 10,000
# states of the stack map. They are read, and checked twice each, once for their own lines and once for that of their class; one of
# them fails at its last instruction. The time of a call without a file is taken off. It runs outside the gate, and is skipped where
# the program isn't built.
set -eu
here=$(cd "$(dirname "$0")" && pwd)
crate=$here/../crates/type_check
program=$crate/out/type_check
if [ ! -x "$program" ]; then
    echo "verifying.sh: skipped, since type_check isn't built"
    exit 0
fi
times=100

# nanoseconds of so many calls
measure() {
    began=$(date +%s%N)
    for turn in $(seq "$times"); do
        "$program" "$@" >/dev/null 2>&1 || {
            echo "verifying.sh: failed in turn $turn" >&2
            exit 1
        }
    done
    ended=$(date +%s%N)
    echo $((ended - began))
}

none=$(measure)
all=$(measure "$crate/data/large.class")
echo "two methods of 65535 bytes, checked twice: $(((all - none) / times / 1000)) microseconds a time, over $times times"
