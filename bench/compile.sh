#!/bin/sh
# Times `copilot compile`, from text to files, and its resident memory. Outside the gate. Use: bench/compile.sh PROGRAM,
# where PROGRAM is the proved `copilot`.
set -eu
program=$(cd "$(dirname "$1")" && pwd)/$(basename "$1")
[ -x "$program" ] || { echo "there is no program $1" >&2; exit 2; }
work=$(mktemp -d /tmp/compile.XXXXXX)
trap 'rm -rf "$work"' EXIT
cd "$work"

# a stream with i mod 8 + 1 initial values and a trigger, for each i below K
demo() {
    awk -v k="$1" 'BEGIN { printf "(spec demo"
        for (i = 0; i < k; i++) { d = i % 8; printf " (stream s%d Word32 (", i
            for (j = 0; j <= d; j++) printf "%s%d:Word32", (j ? " " : ""), i + j
            printf ") (+ (drop %d s%d) 1:Word32))", d, i }
        for (i = 0; i < k; i++) printf " (trigger h%d (== (rem s%d 7:Word32) 0:Word32) s%d)", i, i, i
        print ")" }'
}
demo 200 > demo_200.spec
demo 1000 > demo_1000.spec
# sixteen streams of 4,096 values
awk 'BEGIN { printf "(spec a"; for (s = 0; s < 16; s++) { printf " (stream s%d Word8 (", s
    for (i = 0; i < 4096; i++) printf "%s%d:Word8", (i ? " " : ""), i % 256
    printf ") (drop 4095 s%d))", s } print ")" }' > streams.spec
# 1 MiB: 2,000 triggers of towers of 50 sums
awk 'BEGIN { printf "(spec a (extern x Word8)"; for (k = 0; k < 2000; k++) { printf " (trigger t%d (== x ", k
    for (i = 0; i < 50; i++) printf "(+ x "; printf "1:Word8"; for (i = 0; i < 50; i++) printf ")"; printf ") (+ x 1:Word8))" } print ")" }' > towers.spec

for text in demo_200 demo_1000 streams towers; do
    begin=$(date +%s%N)
    line=$("$program" compile $text.spec a 2>&1) || true
    end=$(date +%s%N)
    printf '%6d ms: %s, %d bytes: %s\n' $(((end - begin) / 1000000)) $text "$(wc -c < $text.spec)" "${line:-compiled}"
done
