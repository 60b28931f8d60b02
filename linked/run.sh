#!/bin/sh
# linked/run.sh: builds the library and both examples, and holds what they write of every plan of plans/ to each other
# and to the first lines that the proved judging program writes of it. Needs rt, cc and rustc on the path.
here=$(cd "$(dirname "$0")" && pwd) || exit 2
root=$(dirname "$here")
library="$root/target/staticlib/libweftpillar.a"

failed() {
    echo "linked: FAILED: $1" >&2
    exit 1
}

for tool in cc rustc; do
    command -v "$tool" >/dev/null 2>&1 || failed "$tool is not on the path"
done

# what is missing is proved and built, once: rt, in the crate's folder, writes it into out/ there
built() {
    [ -e "$1" ] && return
    command -v rt >/dev/null 2>&1 || failed "rt, the Rattle toolchain, is not on the path"
    echo "linked: proving and building ${1#"$root"/}, once; this takes some minutes" >&2
    (cd "$root/crates/$3" && rt "$2" </dev/null) >"$work/log" 2>&1 || { tail -n 20 "$work/log" >&2; failed "rt $2 in crates/$3"; }
    mkdir -p "$(dirname "$1")" && cp "$root/crates/$3/out/$4" "$1" || failed "crates/$3/out/$4 could not be copied"
}

work=$(mktemp -d) || exit 2
trap 'rm -rf "$work"' EXIT
built "$library" lib weftpillar_c libweftpillar_c.a
built "$root/target/bin/judge" run judge judge

cc -std=c11 -O2 -Wall -Wextra -Werror -o "$work/judge-c" "$here/judge.c" "$library" || failed "cc on judge.c"
rustc --edition 2021 -O -D warnings -o "$work/judge-rust" -L "$root/target/staticlib" -l static=weftpillar "$here/judge.rs" ||
    failed "rustc on judge.rs"

plans=0
for plan in "$root"/plans/*.csp; do
    name=$(basename "$plan")
    "$work/judge-c" "$plan" 200 >"$work/c" || failed "judge.c on $name"
    "$work/judge-rust" "$plan" 200 >"$work/rust" || failed "judge.rs on $name"
    cmp -s "$work/c" "$work/rust" || failed "judge.c and judge.rs write different bytes of $name"
    lines=$(wc -l <"$work/c")
    "$root/target/bin/judge" <"$plan" 2>/dev/null | head -n "$lines" >"$work/proved"
    cmp -s "$work/c" "$work/proved" || failed "$name: the judging program writes other first $lines lines"
    plans=$((plans + 1))
done
[ "$plans" -gt 0 ] || failed "no plan in plans/"
echo "linked: OK: judge.c and judge.rs write the same of $plans plans, and what the proved judge writes"
