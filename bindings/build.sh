#!/bin/sh
# Builds the proved archive, then the examples in C and Rust over it, runs them, and compares what each writes with expected.txt.
# Needs rt, gcc and rustc (1.82 or newer) on the PATH.
set -eu
here=$(cd "$(dirname "$0")" && pwd)
built=$(dirname "$here")/target/bindings

say() { echo "build.sh: $*"; }

matches() {
    "$built/$1" >"$built/$1.out"
    diff -u "$here/expected.txt" "$built/$1.out"
    say "$1 wrote what expected.txt has"
}

sh "$here/archive.sh"

say "compiling and running example.c with example_spectra.c, example_surveys.c, example_sheets.c and example_joins.c"
gcc -std=c11 -O2 -Wall -Wextra -Wpedantic -Werror -o "$built/example_c" "$here"/example*.c "$built/libkoxirmeta.a"
matches example_c

for edition in 2021 2024; do
    say "compiling koxirmeta.rs, and compiling and running example.rs, under Rust's edition $edition"
    rustc --edition $edition --crate-type lib -D warnings -D missing_docs -o "$built/libkoxirmeta.rlib" "$here/koxirmeta.rs"
    rustc --edition $edition -O -D warnings -L "native=$built" -l static=koxirmeta -o "$built/example_rust_$edition" "$here/example.rs"
    matches example_rust_$edition
done
