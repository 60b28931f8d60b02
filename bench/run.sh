#!/bin/sh
# bench/run.sh compare [seed] [count] [kind] | programs [seed] [count] | selftest [seed] | bench [seed] [section]
# Builds what is missing and runs it: the library and the programs by rt, the rest by cargo.
# bench/run.sh cases
# Makes the plan files and the expected output of plan_cases, step_cases and shown_cases again, each from its data/cases. The
# answers are worked out by the second implementation, src/model.rs, and never by a program under test: nothing that rt
# builds is needed or run.
here=$(cd "$(dirname "$0")" && pwd) || exit 2
home=$(dirname "$here")
cd "$home" || exit 2

# Proves and builds what is missing or older than a source file, by rt in the crate's folder, and takes it from that folder's
# out/; what rt prints is kept for a failure.
built() {
    file=$1
    command=$2
    folder=crates/$3
    made=$folder/out/$4
    shift 4
    if [ -e "$file" ] && [ -z "$(find crates -name '*.rt' -not -path '*/out/*' -newer "$file")" ]; then
        return
    fi
    echo "bench: rt $command in $folder (once; this takes some minutes)" >&2
    mkdir -p "$here/target" "$(dirname "$file")"
    if ! (cd "$folder" && rt "$command" "$@" </dev/null) >"$here/target/rt.log" 2>&1 || ! cp "$made" "$file"; then
        tail -n 20 "$here/target/rt.log" >&2
        echo "bench: rt $command in $folder failed; the whole log is bench/target/rt.log" >&2
        exit 2
    fi
    touch "$file"
}

if [ "$1" = cases ]; then
    exec cargo run --quiet --offline --manifest-path "$here/Cargo.toml" -- cases
fi
built target/staticlib/libweftpillar.a lib weftpillar_c libweftpillar_c.a
case $1 in
programs | bench)
    built target/bin/judge run judge judge
    built target/bin/stepper run stepper stepper -- "$home/plans/small.csp"
    ;;
esac
cargo build --quiet --release --offline --features linked --manifest-path "$here/Cargo.toml" || exit 2
exec "$here/target/release/bench" "$@"
