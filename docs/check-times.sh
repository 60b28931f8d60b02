#!/bin/sh
# What the gate costs, crate by crate: seconds and peak memory of each crate's check from nothing, one crate at a time, how
# many must-fail edits it has, and their product, since an edit costs its crate's check. A table on standard output.
# Usage: docs/check-times.sh (some ten minutes). What was proved before is removed first.
cd "$(dirname "$0")/.." || exit 1
rm -rf crates/*/out
echo '| Crate | Seconds | Peak memory, MB | Edits | Seconds of edits |'
echo '|---|---|---|---|---|'
log=$(mktemp)
all=$(mktemp)
for crate in $(sed -n 's/^\([a-z_0-9]*\)[^:]*:.*/\1/p' crates.txt); do
    if ! (cd "crates/$crate" && /usr/bin/time -f '%e %M' -o "$log" rt check >"$log.out" 2>&1); then
        echo "$crate is not proved:" >&2
        tail -5 "$log.out" >&2
        exit 1
    fi
    edits=$(find "crates/$crate/must-fail" -name '*.edit' 2>/dev/null | wc -l)
    awk -v crate="$crate" -v edits="$edits" '{ print crate, $1, $2 / 1024, edits }' "$log" >>"$all"
done
awk '{ printf "| `%s` | %.0f | %.0f | %d | %.0f |\n", $1, $2, $3, $4, $2 * $4; s += $2; e += $4; p += $2 * $4 }
     END { printf "| together | %.0f | | %d | %.0f |\n", s, e, p }' "$all"
rm -f "$log" "$log.out" "$all"
