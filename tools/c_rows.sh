#!/bin/sh
# Compiles the worked specifications with `copilot compile`, and the C that it writes with gcc and clang, warnings but
# two as errors. Outside the gate. Use: tools/c_rows.sh PROGRAM, where PROGRAM is the proved `copilot`.
set -eu
program=$(cd "$(dirname "$1")" && pwd)/$(basename "$1")
[ -x "$program" ] || { echo "there is no program $1" >&2; exit 2; }
work=$(mktemp -d /tmp/c_rows.XXXXXX)
trap 'rm -rf "$work"' EXIT
cd "$work"

cat > rows <<'END'
(spec heater (extern temp Int32) (trigger heat (< temp 18:Int32) temp))
(spec a)
(spec c (stream n Word8 (0:Word8) (+ n 1:Word8)) (trigger t (== n 0:Word8) n))
(spec c (stream n Int8 (0:Int8) (+ n 1:Int8)) (trigger t (> n 124:Int8) n))
(spec w (extern w Word16) (trigger t true (* w w)))
(spec m (stream s Int64 (-9223372036854775808:Int64) s) (trigger t (== s -9223372036854775808:Int64) s))
(spec q (extern a Int32) (extern b Int32) (trigger q true (if (== b 0:Int32) 0:Int32 (quot a b)) (if (== b 0:Int32) 0:Int32 (rem a b))))
(spec pair (stream x Int32 (1:Int32) (+ x (drop 4 y))) (stream y Int32 (0:Int32 1:Int32 2:Int32 3:Int32 4:Int32) x) (trigger o true x y))
(spec g (struct P (x Int16) (y Int16)) (extern p (array P 3)) (extern i Word32) (trigger t true (field (index p i) x)))
(spec l (extern p Bool) (extern q Bool) (trigger a true (since p q) (once-in 0 0 q) (historically-in 2 4 p)))
(spec z (extern d Int32) (trigger a (if (== d 0:Int32) false (once (> (quot 6:Int32 d) 2:Int32)))))
(spec v (extern a Word8) (extern b Word8) (extern c Word8) (trigger m true (majority a b c) (agreed a b c) (window-max 2 a) (window-sum 2 a)) (trigger k (clock 2 1)))
(spec y (extern p Bool) (trigger a (yesterday p)) (trigger b (weakly-yesterday p)))
(spec n (trigger t true -128:Int8 -1:Int64))
(spec2 m (extern a Int8) (trigger t (> a 0:Int8) a) (trigger t (< a 5:Int8) 1:Int8))
(spec r (struct P (x (array Word8 2)) (b Bool)) (stream s P ((record P (array 1:Word8 2:Word8) true) (record P (array 3:Word8 4:Word8) false)) (record P (array 5:Word8 (index (field s x) 0:Word32)) (field (drop 1 s) b))) (trigger t (field s b) s (field s x)))
END

count=0
while read -r text; do
    printf '%s\n' "$text" > row.spec
    "$program" compile row.spec row
    # votes compare a value with itself, and a guard may stand in two pairs of parentheses
    gcc -std=c99 -pedantic -Wall -Wextra -Werror -Wno-tautological-compare -c row.c -o row.o
    clang -std=c99 -pedantic -Wall -Wextra -Werror -Wno-tautological-compare -Wno-parentheses-equality -c row.c -o row.o
    count=$((count + 1))
done < rows
echo "$count rows compile with gcc and clang"
