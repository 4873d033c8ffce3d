#!/bin/sh
# Counts the instructions of values in text, 65,536 of six digits in chunks of 65,536 rows: a whole run that appends them, the
# reading of the lines that append them, and the printing of the reply that has them. Beside these a plain loop, strtoll and
# printf in C. Wants gcc, valgrind and python3.
top=$(cd "$(dirname "$0")/.." && pwd -P) || exit 1
for tool in gcc valgrind python3; do
    command -v "$tool" >/dev/null || { echo "skipped: no $tool"; exit 0; }
done
work=$(mktemp -d) || exit 1
trap 'rm -rf "$work"' EXIT
"$top/h5swmr" play --type i32le --chunk 65536 </dev/null || exit 1
gcc -O2 -o "$work/text" "$top/bench/text.c" || exit 1

python3 - "$work" <<'END' || exit 1
import sys
lines = [" ".join(str(100000 + v * 7919 % 900000) for v in range(first, first + 8192)) for first in range(0, 65536, 8192)]
appends = "".join("append %s\n" % line for line in lines)
open(sys.argv[1] + "/values", "w").write("\n".join(lines) + "\n")
open(sys.argv[1] + "/append", "w").write(appends + "flush\nwrite 1000000\n")
open(sys.argv[1] + "/read", "w").write(appends + "flush\nwrite 1000000\nopen 1\nlook 1 1000000\nread 1 0 65536\nlook 1 1000000\n")
END

# counts the instructions of the program over a script
program() {
    valgrind --tool=callgrind --callgrind-out-file="$work/$1.out" \
        "$top/crates/h5w_cli/out/h5w_cli" play --type i32le --chunk 65536 --budget 1073741824 <"$work/$1" >"$work/replies" 2>"$work/log" || exit 1
}

# what a function in C and those that it calls cost
in_c() {
    valgrind --tool=callgrind --toggle-collect="$2" --callgrind-out-file="$work/out" "$work/text" "$1" <"$work/values" >/dev/null 2>"$work/log" || exit 1
    sed -n 's/^summary: //p; s/^totals: //p' "$work/out" | head -n 1
}

program append
program read
callgrind_annotate --inclusive=yes --threshold=100 "$work/append.out" >"$work/append.costs" || exit 1
callgrind_annotate --inclusive=yes --threshold=100 "$work/read.out" >"$work/read.costs" || exit 1
python3 - "$work" "$(in_c loop read_loop)" "$(in_c strtoll read_strtoll)" "$(in_c printf print_printf)" <<'END'
import re, sys
VALUES = 65536

def cost(run, name):
    """What a function of this name and those that it calls cost: of several names, the one that calls the others."""
    lines = open("%s/%s.costs" % (sys.argv[1], run)).read().split("\n")
    return max(int(m.group(1).replace(",", "")) for line in lines for m in [re.match(r" *([0-9,]+) .*" + name, line)] if m)

total = cost("append", "PROGRAM TOTALS")
read = cost("append", r":h5w_input::script::\w+")
printed = cost("read", r":h5w_text::digits::\w*value")
loop, strtoll, printf = map(int, sys.argv[2:])
print("append, all in all: %.1f instructions a value (at most 130)" % (total / VALUES))
print("read from text: %.1f a value; in C a plain loop %.1f, strtoll %.1f" % (read / VALUES, loop / VALUES, strtoll / VALUES))
print("printed: %.1f a value (at most 120); in C printf %.1f" % (printed / VALUES, printf / VALUES))
sys.exit(0 if total <= 130 * VALUES and printed <= 120 * VALUES else 1)
END
