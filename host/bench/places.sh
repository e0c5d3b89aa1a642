#!/bin/sh
# Holds the check of the benchmark at four places: the library's code moved on by 0, 16, 32 and 48
# bytes in its cache lines. A linker may put it at any of these, and for a short loop the place can
# make a difference of a half. Prints the ratios of each row at the four places, the row with the
# greatest last, and fails where the median of a row is over 1.0.
set -eu
cd "$(dirname "$0")/../.."

work="$PWD/target/bench/places"
library="$PWD/target/staticlib/libbujorelm.a"
if [ ! -f "$library" ]; then
    echo "host/bench: $library is missing" >&2
    exit 1
fi
rm -rf "$work"
mkdir -p "$work"
CARGO_TARGET_DIR="$work/build"
export CARGO_TARGET_DIR

for shift in 0 16 32 48; do
    mkdir "$work/$shift"
    cat >"$work/$shift/script" <<END
SECTIONS { .text.bujorelm ALIGN(64) : { . = $shift; *(.text .text.*) } }
END
    (cd "$work/$shift" && ar x "$library" && ld -r -T script ./*.o -o moved &&
        objcopy --set-section-alignment .text.bujorelm=64 moved bujorelm.o &&
        ar rcs libbujorelm.a bujorelm.o)
    LIBBUJORELM="$work/$shift" \
        cargo build --release --offline --quiet --manifest-path host/bench/Cargo.toml
    cp "$CARGO_TARGET_DIR/release/bench" "$work/$shift/bench"
done
# By turns, so that what else the machine does falls on all of them alike.
for _ in 1 2 3; do
    for shift in 0 16 32 48; do
        { "$work/$shift/bench" --check || true; } | sed "s/^/$shift /" >>"$work/ratios"
    done
done

# The median of the three rounds for each place, and the median of the four places for each row.
awk '
    function median(list,    v, n, i, j, t) {
        n = split(list, v, " ")
        for (i = 2; i <= n; i++)
            for (j = i; j > 1 && v[j - 1] + 0 > v[j] + 0; j--) {
                t = v[j]
                v[j] = v[j - 1]
                v[j - 1] = t
            }
        return n % 2 ? v[(n + 1) / 2] : (v[n / 2] + v[n / 2 + 1]) / 2
    }
    / rows, / { next }
    {
        place = $1
        ratio = $2
        sub(/^[0-9]+ +[0-9.]+  /, "")
        sub(/  OVER$/, "")
        rows[$0]
        all[$0, place] = all[$0, place] " " ratio
    }
    END {
        for (name in rows) {
            a = median(all[name, 0]); b = median(all[name, 16])
            c = median(all[name, 32]); d = median(all[name, 48])
            m = median(a " " b " " c " " d)
            over = m > 1 && name !~ /no goal/ ? "  OVER" : ""
            printf "%6.3f %6.3f %6.3f %6.3f %7.3f  %s%s\n", a, b, c, d, m, name, over
        }
    }' "$work/ratios" | sort -k5,5n >"$work/table"
echo "     0     16     32     48  median"
cat "$work/table"
if grep -q "OVER$" "$work/table"; then
    exit 1
fi
