#!/bin/sh
# Runs the C of the worked specifications over their samples, compiled by gcc and clang with -fsanitize=undefined, and
# compares its calls with the lines of `copilot interpret`, up to the first hazard. Outside the gate.
# Use: tools/c_runs.sh PROGRAM, where PROGRAM is the proved `copilot`.
set -eu
tools=$(cd "$(dirname "$0")" && pwd)
program=$(cd "$(dirname "$1")" && pwd)/$(basename "$1")
[ -x "$program" ] || { echo "there is no program $1" >&2; exit 2; }
work=$(mktemp -d /tmp/c_runs.XXXXXX)
trap 'rm -rf "$work"' EXIT
cd "$work"

# a specification, and behind a bar its samples
cat > cases <<'END'
(spec heater (extern temp Int32) (trigger heat (< temp 18:Int32) temp))|temp\n20\n17\n
(spec w (extern w Word16) (trigger t true (* w w)))|w\n65535\n3\n
(spec m (stream s Int64 (-9223372036854775808:Int64) s) (trigger t (== s -9223372036854775808:Int64) s))|k\n1\n1\n
(spec c (stream n Int8 (120:Int8) (+ n 1:Int8)) (trigger t (> n 124:Int8) n))|k\n1\n1\n1\n1\n1\n1\n1\n1\n1\n
(spec q (extern a Int32) (extern b Int32) (trigger q true (if (== b 0:Int32) 0:Int32 (quot a b)) (if (== b 0:Int32) 0:Int32 (rem a b))))|a,b\n7,0\n-7,2\n-2147483648,-1\n
(spec pair (stream x Int32 (1:Int32) (+ x (drop 4 y))) (stream y Int32 (0:Int32 1:Int32 2:Int32 3:Int32 4:Int32) x) (trigger o true x y))|k\n1\n1\n1\n1\n1\n1\n
(spec g (struct P (x Int16) (y Int16)) (extern p (array P 3)) (extern i Word32) (trigger t true (field (index p i) x)))|p[0].x,p[0].y,p[1].x,p[1].y,p[2].x,p[2].y,i\n1,2,3,4,5,6,2\n1,2,3,4,5,6,3\n
(spec l (extern p Bool) (extern q Bool) (trigger a true (since p q) (once-in 0 0 q) (historically-in 2 4 p)))|p,q\n1,0\n1,1\n0,0\n1,0\n1,1\n1,0\n
(spec z (extern d Int32) (trigger a (if (== d 0:Int32) false (once (> (quot 6:Int32 d) 2:Int32)))))|d\n2\n0\n
(spec v (extern a Word8) (extern b Word8) (extern c Word8) (trigger m true (majority a b c) (agreed a b c) (window-max 2 a) (window-sum 2 a)) (trigger k (clock 2 1)))|a,b,c\n1,1,2\n3,4,5\n255,7,7\n
(spec y (extern p Bool) (trigger a (yesterday p)) (trigger b (weakly-yesterday p)))|p\n1\n0\n1\n
(spec n (trigger t true -128:Int8 -1:Int64))|k\n1\n
(spec r (struct P (x (array Word8 2)) (b Bool)) (stream s P ((record P (array 1:Word8 2:Word8) true) (record P (array 3:Word8 4:Word8) false)) (record P (array 5:Word8 (index (field s x) 0:Word32)) (field (drop 1 s) b))) (trigger t true s (field s x)))|k\n1\n1\n1\n1\n1\n
(spec2 m (extern a Int8) (trigger t (> a 0:Int8) a) (trigger t (< a 5:Int8) 1:Int8))|a\n3\n9\n
END

count=0
while IFS='|' read -r text samples; do
    printf '%s\n' "$text" > row.spec
    printf "$samples" > rows.csv
    "$program" compile row.spec row
    steps=$(($(wc -l < rows.csv) - 1))
    "$program" interpret row.spec < rows.csv > wanted 2> line || steps=$(sed -n 's/^hazard: .* at step //p' line)
    awk -v steps="$steps" -v header=row.h -f "$tools/host.awk" row.h rows.csv > host.c
    for cc in gcc clang; do
        "$cc" -std=c99 -w -fsanitize=undefined -fno-sanitize-recover=all host.c row.c -o host
        ./host > calls
        diff wanted calls || { echo "other calls: $text" >&2; exit 1; }
    done
    count=$((count + 1))
done < cases
echo "$count specifications make the calls that interpret shows, by gcc and by clang"
