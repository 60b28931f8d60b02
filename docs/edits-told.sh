#!/bin/sh
# The must-fail edits, by the public function whose promise each tries, as its first line says:
#     # crate::function, crate::function: what is wrong in this program.
# A subject in words (no `::`) stands for a theorem or for definitions that no single function has.
#   docs/edits-told.sh         is docs/TOUR.md's table as the edits have it, and has every public function that promises
#                              something two edits or more? Says what is not so, and fails
#   docs/edits-told.sh write   puts the table into docs/TOUR.md
cd "$(dirname "$0")/.." || exit 2
work=$(mktemp -d) || exit 2
trap 'rm -rf "$work"' EXIT
# A static library's line has `staticlib` before the colon and is passed over: `weftpillar_c` repeats the calls of `weftpillar`
# with their clauses, and has an edit for each.
crates=$(sed -n 's/^\([a-z_0-9]*\):.*/\1/p' crates.txt)

# Public functions that promise something: those of a library's root, those that the root passes on with `pub use`, and a type's
# own, as crate::Type::function. Of a trait's function for a type, as crate::Type::from, the promise is the `ghost .. = {` beside it.
for crate in $crates; do
    root=crates/$crate/src/lib.rt
    [ -f "$root" ] || continue
    passed=" $(tr '\n' ' ' <"$root" | grep -o 'pub use [^;]*;' | sed 's/^pub use [a-z_0-9:]*:://; s/[{},;]/ /g' | tr '\n' ' ' | tr -s ' ')"
    awk -v crate="$crate" -v root="$root" -v passed="$passed" '
        function told() {
            if (name != "" && promises && (type != "" || file == root || index(passed, " " name " "))) {
                print crate "::" (type == "" ? "" : type "::") name
            }
            name = ""
        }
        FNR == 1 { told(); type = ""; file = FILENAME }
        /^impl/ { told(); trait = / for /; promised = 0
            type = $0; sub(/^impl(<[^>]*>)? /, "", type); sub(/^.* for /, "", type); sub(/[ <{].*/, "", type) }
        /^}/ { told(); type = "" }
        type != "" && /^    ghost [a-z_]+ = \{/ { promised = 1 }
        /^(    )?(pub )?(extern "C" )?fn / { told(); promises = trait && type != "" && promised
            if ($0 ~ /^ *pub / || trait && type != "") { name = $0; sub(/^.*fn /, "", name); sub(/[<(].*/, "", name) } }
        /^ +ensures / { promises = 1 }
        END { told() }' crates/"$crate"/src/*.rt
done >"$work/functions"

# A line for each subject of each edit: subject, edit, sentence.
for crate in $crates; do
    for edit in crates/"$crate"/must-fail/*.edit; do
        [ -f "$edit" ] || continue
        EDIT=$crate/$(basename "$edit" .edit) awk 'NR == 1 {
            line = $0; sub(/^# /, "", line); at = index(line, ": ")
            n = split(at ? substr(line, 1, at - 1) : "", subject, ", ")
            if (n == 0) print "?\t" ENVIRON["EDIT"] "\t" line
            for (k = 1; k <= n; k++) print subject[k] "\t" ENVIRON["EDIT"] "\t" substr(line, at + 2) }' "$edit"
    done
done >"$work/edits"

{
    echo '| Promise | Wrong programs, and the edit that tries each |'
    echo '|---|---|'
    awk -F '\t' '
        FILENAME ~ /functions$/ { order[++count] = $1; next }
        { if (!($1 in row)) { seen[++subjects] = $1 }; row[$1] = row[$1] (row[$1] == "" ? "" : " · ") $3 " (`" $2 "`)" }
        END {
            for (k = 1; k <= count; k++) if (order[k] in row) { print "| `" order[k] "` | " row[order[k]] " |"; done[order[k]] = 1 }
            for (k = 1; k <= subjects; k++) if (!(seen[k] in done)) print "| " seen[k] " | " row[seen[k]] " |"
        }' "$work/functions" "$work/edits"
} >"$work/table"

begin='<!-- the table below: docs/edits-told.sh write -->'
if [ "${1:-}" = write ]; then
    { awk -v begin="$begin" '{ print } $0 == begin { exit }' docs/TOUR.md && cat "$work/table"; } >"$work/tour" && cp "$work/tour" docs/TOUR.md
    exit
fi

wrong=0
if ! awk -v begin="$begin" 'below { print } $0 == begin { below = 1 }' docs/TOUR.md | cmp -s - "$work/table"; then
    echo "docs/TOUR.md: another table than the edits have (docs/edits-told.sh write)"
    wrong=$((wrong + 1))
fi
awk -F '\t' '
    FILENAME ~ /functions$/ { function_of[$1] = 1; next }
    $1 == "?" { print "no subject: " $2; next }
    $1 ~ /::/ && !($1 in function_of) { print "no such promise: " $1 " in " $2; next }
    { tried[$1]++ }
    END { for (f in function_of) if (tried[f] < 2) print "fewer than two edits: " f }' "$work/functions" "$work/edits" | sort >"$work/wrong"
cat "$work/wrong"
wrong=$((wrong + $(wc -l <"$work/wrong")))
echo "$(cut -f 2 "$work/edits" | sort -u | wc -l) edits, $(wc -l <"$work/functions") promises, $wrong wrong"
[ "$wrong" -eq 0 ]
