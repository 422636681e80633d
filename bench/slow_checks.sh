#!/bin/sh
# Seconds that the built program type_check takes to read and check each of the class files that slow_checks.py writes, and seconds in
# which the JVM links the same class (Linked.java). Each file has at most a mebibyte. A kind is to take less than a second, and never
# twice as long as the JVM; type_check checks each class twice, method by method and as a whole. It runs outside the gate, and is skipped
# where the program isn't built or python3 or java is missing.
set -eu
here=$(cd "$(dirname "$0")" && pwd)
program=$here/../crates/type_check/out/type_check
for tool in python3 java javac; do
    if ! command -v "$tool" >/dev/null 2>&1; then
        echo "slow_checks.sh: skipped, since $tool is missing"
        exit 0
    fi
done
if [ ! -x "$program" ]; then
    echo "slow_checks.sh: skipped, since type_check isn't built"
    exit 0
fi
folder=$(mktemp -d)
trap 'rm -rf "$folder"' EXIT
javac -d "$folder" "$here/Linked.java"
python3 "$here/slow_checks.py" "$folder" >"$folder/kinds"
cd "$folder"
while read -r kind files; do
    checked=${files##* }
    # the classes that the checked one names come behind it
    known=${files%"$checked"}
    began=$(date +%s%N)
    if ! timeout 300 "$program" "$checked" ${known:+--known $known} >answers 2>&1; then
        echo "$kind: no answer within 300 seconds"
        continue
    fi
    ended=$(date +%s%N)
    if grep -q fails answers; then
        echo "$kind: fails the check: $(grep fails answers | head -1 | cut -c1-100)"
        continue
    fi
    java=$(java -Xmx2g -cp . Linked $files)
    echo "$kind: $(awk -v ns=$((ended - began)) 'BEGIN { printf "%.3f", ns / 1e9 }') s, the JVM $java s"
done <kinds
