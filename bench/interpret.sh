#!/bin/sh
# Rows a second of `copilot interpret` and of `copilot cexec` on the compiled files over three workloads, at 10,000 and at
# 1,000,000 rows (the third at a tenth of these), and the resident memory; and whether both write the same. Outside the
# gate. Use: bench/interpret.sh PROGRAM, where PROGRAM is the proved `copilot`.
set -eu
program=$(cd "$(dirname "$1")" && pwd)/$(basename "$1")
[ -x "$program" ] || { echo "there is no program $1" >&2; exit 2; }
work=$(mktemp -d /tmp/interpret.XXXXXX)
trap 'rm -rf "$work"' EXIT
cd "$work"

# one extern and one trigger
printf '(spec heater (extern temp Int32) (trigger heat (< temp 18:Int32) temp))' > heater.spec
# the wrapping counter
printf '(spec c (stream n Word8 (0:Word8) (+ n 1:Word8)) (trigger t (== n 0:Word8) n))' > counter.spec
# 200 streams of one to eight initial values, and a trigger of each
awk -v k=200 'BEGIN { printf "(spec demo"
    for (i = 0; i < k; i++) { d = i % 8; printf " (stream s%d Word32 (", i
        for (j = 0; j <= d; j++) printf "%s%d:Word32", (j ? " " : ""), i + j
        printf ") (+ (drop %d s%d) 1:Word32))", d, i }
    for (i = 0; i < k; i++) printf " (trigger h%d (== (rem s%d 7:Word32) 0:Word32) s%d)", i, i, i
    print ")" }' > demo.spec

# runs a command over the rows, and prints its speed
measure() {
    begin=$(date +%s%N)
    /usr/bin/env time -f %M -o memory "$program" "$2" "$3" < rows.csv > "$2.out" || true
    end=$(date +%s%N)
    awk -v name="$1" -v command="$2" -v n="$4" -v ns=$((end - begin)) -v lines="$(wc -l < "$2.out")" -v kb="$(tail -n 1 memory 2> /dev/null || echo unknown)" \
        'BEGIN { printf "%-8s %-9s %8d rows: %9.0f rows a second, %d lines, %s KB resident\n", name, command, n, n * 1e9 / ns, lines, kb }'
}

# both commands over so many rows of a column
both() {
    awk -v c="$2" -v n="$3" 'BEGIN { print c; for (i = 0; i < n; i++) print i % 40 }' > rows.csv
    measure "$1" interpret "$1.spec" "$3"
    measure "$1" cexec "$1" "$3"
    cmp interpret.out cexec.out
}
for name in heater counter demo; do "$program" compile $name.spec $name; done
for n in 10000 1000000; do
    both heater temp $n
    both counter k $n
    both demo k $((n / 10))
done
