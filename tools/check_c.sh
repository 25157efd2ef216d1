#!/bin/sh
# Compiles the C of every example with gcc and clang, runs it under -fsanitize=undefined over the example's samples up to
# the first hazard, and compares its calls with those of `copilot interpret`; so does it with those of `copilot cexec`. A
# compiler that isn't there is passed over.
# Use: tools/check_c.sh PROGRAM, where PROGRAM is the proved `copilot`. It runs behind `rt ci` in .ci/run.
set -eu
tools=$(cd "$(dirname "$0")" && pwd)
program=$(cd "$(dirname "$1")" && pwd)/$(basename "$1")
[ -x "$program" ] || { echo "there is no program $1" >&2; exit 2; }
work=$(mktemp -d /tmp/check_c.XXXXXX)
trap 'rm -rf "$work"' EXIT
cd "$work"
for spec in "$tools"/../examples/*/*.spec; do
    name=$(basename "$spec" .spec)
    cp "$spec" "$(dirname "$spec")/rows.csv" .
    "$program" compile "$name.spec" "$name"
    steps=$(($(wc -l < rows.csv) - 1))
    "$program" interpret "$name.spec" < rows.csv > events 2> line || steps=$(sed -n 's/^hazard: .* at step //p' line)
    sed '/^[0-9]* =/d' events > wanted
    head -n $((steps + 1)) rows.csv > clean.csv
    "$program" cexec "$name" < clean.csv > executed
    diff wanted executed
    awk -v steps="$steps" -v header="$name.h" -f "$tools/host.awk" "$name.h" rows.csv > host.c
    for cc in gcc clang; do
        command -v $cc > /dev/null || { echo "no $cc: $name isn't compiled with it"; continue; }
        # a vote compares a value with itself, and a guard may stand in two pairs of parentheses
        flags=-Wno-tautological-compare
        [ $cc = gcc ] || flags="$flags -Wno-parentheses-equality"
        $cc -std=c99 -pedantic -Wall -Wextra -Wconversion -Werror $flags -c "$name.c" -o "$name.o"
        $cc -std=c99 -w -fsanitize=undefined -fno-sanitize-recover=all host.c "$name.c" -o host
        ./host > calls
        diff wanted calls
        echo "$name: $(wc -l < calls) calls over $steps steps, by $cc as by interpret"
    done
done
