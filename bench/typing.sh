#!/bin/sh
# Times `copilot compile` on texts of about 1 MiB, each of which is read and typed whole and then refused or compiled.
# Outside the gate. Use: bench/typing.sh PROGRAM, where PROGRAM is the proved `copilot` (rt run in crates/copilot
# builds it).
set -eu
program=$(cd "$(dirname "$1")" && pwd)/$(basename "$1")
[ -x "$program" ] || { echo "there is no program $1" >&2; exit 2; }
work=$(mktemp -d /tmp/typing.XXXXXX)
trap 'rm -rf "$work"' EXIT
cd "$work"

# 45,000 externs, each name once
awk 'BEGIN { printf "(spec a"; for (k = 0; k < 45000; k++) printf " (extern x%d Word8)", k; print ")" }' > externs.spec
# 41,000 defs, each of which is the one before
awk 'BEGIN { printf "(spec a (extern d0 Word8)"; for (k = 1; k < 41000; k++) printf " (def d%d Word8 d%d)", k, k - 1; print ")" }' > chain.spec
# a constant of arrays of structs of arrays, 1 MiB of them
awk 'BEGIN { printf "(spec a (struct P (x (array Word8 8)))"
    for (k = 0; k < 770; k++) { printf " (def d%d (array P 16) (array", k
        for (i = 0; i < 16; i++) printf " (record P (array 1:Word8 2:Word8 3:Word8 4:Word8 5:Word8 6:Word8 7:Word8 8:Word8))"
        printf "))" } print ")" }' > arrays.spec
# 2,000 structs, and 45,000 types of arrays of them
awk 'BEGIN { printf "(spec a"; for (k = 0; k < 2000; k++) printf " (struct P%d (x Int8))", k
    n = 0; for (s = 0; n < 45000; s++) { printf " (struct Q%d", s
        for (i = 0; i < 29 && n < 45000; i++) { printf " (f%d (array P%d %d))", i, n % 2000, int(n / 2000) + 1; n++ }
        printf ")" } print ")" }' > types.spec
# a tower of 60 sums in each of 2,750 observers
awk 'BEGIN { printf "(spec a (extern x Word8)"
    for (k = 0; k < 2750; k++) { printf " (observer o%d ", k; for (i = 0; i < 60; i++) printf "(+ x "; printf "x"; for (i = 0; i < 60; i++) printf ")"; printf ")" }
    print ")" }' > towers.spec

for text in externs chain arrays types towers; do
    begin=$(date +%s%N)
    line=$("$program" compile $text.spec a 2>&1) || true
    end=$(date +%s%N)
    printf '%6d ms: %s, %d bytes: %s\n' $(((end - begin) / 1000000)) $text "$(wc -c < $text.spec)" "${line:-compiled}"
done
