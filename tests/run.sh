#!/bin/sh
# All tests. Everything is proved, every wrong program is tried (`rt ci` keeps what it passed before on this machine), and every program's output is compared with its
# stored text; what was proved is then tried as a desk and a bank's own system use it: from the shell, from C and from Rust, there against an independent implementation. The time of each part
# is printed; the last line is `N passed, 0 failed` where all passed, and else says what failed.
#
#   sh tests/run.sh         all of it: the gate
#   sh tests/run.sh quick   everything but the wrong programs, and proves only what changed since it was last proved: for everyday work
set -u
cd "$(dirname "$0")/.." || exit 1
mode=${1:-all}
case $mode in
all | quick) ;;
*)
    echo "usage: sh tests/run.sh [quick]" >&2
    exit 2
    ;;
esac
held=$(mktemp -d) || exit 1
trap 'rm -rf "$held"' EXIT

# One part, with its name and time; where it fails, nothing follows but its name: part NAME COMMAND..
part() {
    name=$1
    shift
    began=$(date +%s)
    echo "== $name"
    if ! "$@"; then
        echo "FAILED: $name, after $(($(date +%s) - began)) s"
        exit 1
    fi
    echo "== $name: $(($(date +%s) - began)) s"
}

# Prints what comes in, line by line, but the last line, which goes to a file: all_but_last FILE
all_but_last() {
    IFS= read -r last
    while IFS= read -r line || [ -n "$line" ]; do
        printf '%s\n' "$last"
        last=$line
    done
    printf '%s\n' "$last" > "$1"
}

# The toolchain's gate, which also fails where a wrong program can't be tried. Its last line is held back where it passes, so that it comes after all other parts.
gate() {
    { rt ci 2>&1 && echo 0 > "$held/status" || echo 1 > "$held/status"; } | tee "$held/log" | all_but_last "$held/last"
    if [ "$(cat "$held/status")" != 0 ] || ! grep -Eqx '[0-9]+ passed, 0 failed' "$held/last"; then
        cat "$held/last"
        return 1
    fi
    if ! grep -q '^rt: ok;' "$held/log" || grep -Eq '^rt: ok;.*, [1-9][0-9]* bad' "$held/log"; then
        echo "wrong programs that can't be tried"
        return 1
    fi
}

# The same with no wrong program, and without what is proved already.
check() {
    rt all check && echo "all parts passed; the wrong programs were not tried" > "$held/last"
}

# Builds a program over what is proved, and holds its output to its stored text, as the gate does: built PROGRAM
built() {
    (
        cd "crates/$1" || exit 1
        if ! rt run > "$held/log" 2>&1; then
            cat "$held/log"
            exit 1
        fi
        crate=$PWD
        [ ! -d data ] || cd data || exit 1
        # shellcheck disable=SC2046 # one argument a word
        set -- "$1" $([ ! -f ../args ] || cat ../args)
        program=$crate/out/$1
        shift
        "$program" "$@" | cmp - "$crate/stdout"
    )
}

# The same of each program.
all_built() {
    for main in crates/*/src/main.rt; do
        program=${main#crates/}
        built "${program%/src/main.rt}" || return 1
    done
}

if [ "$mode" = all ]; then
    part "proofs and wrong programs" gate
else
    part "proofs of what changed" check
    part "programs built" all_built
fi
part "library built" sh tests/archive.sh
part "programs tried" sh tests/programs.sh
part "C example" sh tests/c_example.sh
part "calendar" sh tests/calendar.sh
part "Rust tests" cargo test --offline --release --quiet --manifest-path rust/Cargo.toml
part "README examples" sh tests/readme_examples.sh
part "version of the interface" sh tests/interface.sh
part "differential run" cargo run --offline --release --quiet --manifest-path rust/Cargo.toml -p differential -- --sheets 1000000
cat "$held/last"
