# Sourced by test and bench. Enters the repository root and sets: out, where build products go; lib,
# the library to link (the proved one, or what WILBRYN_LIB names); program, the line program (the
# proved one, or what WILBRYN_PROGRAM names); compile, the C compiler and its words; rust, the Rust
# compiler. It stops where the library lacks a function that wilbryn.h declares.
lib=${WILBRYN_LIB:+$(realpath "$WILBRYN_LIB")}
program=${WILBRYN_PROGRAM:+$(realpath "$WILBRYN_PROGRAM")}
cd "$(dirname "${BASH_SOURCE[0]}")/.."
out=$PWD/target/firmware
mkdir -p "$out"
if [ -z "$lib" ]; then
    firmware/archive calls
    lib=$PWD/target/staticlib/libcalls.a
fi
if [ -z "$program" ]; then
    # rt run builds it, and runs it on no input.
    (cd crates/wilbryn && rt run </dev/null)
    program=$PWD/crates/wilbryn/out/wilbryn
fi
exported=$(nm --quiet --extern-only --defined-only "$lib")
declared=$(grep -o 'wilbryn_[a-z0-9_]*(' firmware/wilbryn.h)
for name in ${declared//(/}; do
    if ! grep -q " T $name\$" <<<"$exported"; then
        echo "$lib does not export $name, which wilbryn.h declares" >&2
        exit 1
    fi
done
compile=(cc -std=c11 -O2 -g -Wall -Wextra -Werror)
rust() { # source, product, words
    rustc --edition 2021 -O "firmware/$1" -o "$out/$2" "${@:3}"
}
