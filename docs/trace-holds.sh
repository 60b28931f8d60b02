#!/bin/sh
# Whether every citation of docs/TRACE.md still holds: `file:name` where the file is there and declares the name (of an
# expected output: a line that begins with these words), `:name` the same in the file cited before it, `folder/file` where
# that is there. Says which do not, and fails.
cd "$(dirname "$0")/.." || exit 2
grep -o '`[A-Za-z0-9_/.-]*:[^`:][^`]*`\|`[A-Za-z0-9_/.-]*/[A-Za-z0-9_.-][A-Za-z0-9_.-]*`' docs/TRACE.md | tr -d '`' | {
    wrong=0
    count=0
    file=
    while IFS= read -r place; do
        path=${place%%:*}
        name=
        case $place in *:*) name=${place#*:} ;; esac
        case $path in
            docs/*) continue ;;
            '') path=$file ;;
            *.edit) [ -e "crates/$path" ] || path=$(dirname "$file")/$path ;;
        esac
        file=$path
        count=$((count + 1))
        if ! [ -e "crates/$path" ]; then
            echo "no such file: $place"
            wrong=$((wrong + 1))
        elif [ -n "$name" ] && ! NAME=$name awk -v path="$path" '
            BEGIN { name = ENVIRON["NAME"] }
            path ~ /stdout$/ { if (index($0, name) == 1) found = 1; next }
            # a declaration: of Rattle, or of antt with its marks taken off
            path ~ /\.rt$/ { line = $0; sub(/^ *(pub )?(extern "C" )?/, "", line)
                             if (line ~ /^(fn|struct|enum|const) /) { split(line, word, /[ (<:;{]+/); if (word[2] == name) found = 1 }; next }
            { line = $0; sub(/^ */, "", line); while (sub(/^(pub|abbrev|unfoldable|record|data) /, "", line));
              split(line, word, /[ ({]/); if (word[1] == name && index(line, ":")) found = 1 }
            END { exit found ? 0 : 1 }' "crates/$path"; then
            echo "does not hold: $path:$name"
            wrong=$((wrong + 1))
        fi
    done
    echo "$count citations, $wrong wrong"
    [ "$wrong" -eq 0 ]
}
