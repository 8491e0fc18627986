#!/bin/sh
# Proves koxirmeta_c_c, listing_c_c and what they stand on, and makes one archive of the two: target/bindings/libkoxirmeta.a
# Needs rt and ar on the PATH.
set -eu
root=$(cd "$(dirname "$0")/.." && pwd)
built=$root/target/bindings
mkdir -p "$built"
rm -f "$built"/*.o "$built/libkoxirmeta.a"
for crate in koxirmeta_c_c listing_c_c; do
    echo "archive.sh: proving $crate and what it stands on, and compiling it: some minutes the first time"
    (cd "$root/crates/$crate" && rt lib) >"$built/$crate.log" 2>&1 || { cat "$built/$crate.log"; exit 1; }
    (cd "$built" && ar x "$root/crates/$crate/out/lib$crate.a")
done
ar rcs "$built/libkoxirmeta.a" "$built"/*.o
