#!/bin/sh
# Proves and builds the archive, links the C and Rust examples with it, runs them and compares what they print. The header is
# taken as C99 and the Rust module in two editions, without a warning, also where none or few of their items are used.
set -eu
cd "$(dirname "$0")/.."
tools/staticlib.sh
built=target/examples
mkdir -p "$built"

c99() {
    "${CC:-gcc}" -std=c99 -O2 -Wall -Wextra -pedantic -Werror -Iinclude "$@"
}
echo '#include "tikuwero.h"' | c99 -fsyntax-only -x c -
for name in listing calls foretold; do
    c99 "examples/$name.c" target/staticlib/libtikuwero.a -o "$built/$name"
done

for edition in 2021 2024; do
    rust() {
        "${RUSTC:-rustc}" --edition "$edition" -O -D warnings -L native=target/staticlib -l static=tikuwero "$@"
    }
    printf '#[path = "examples/tikuwero.rs"]\nmod tikuwero;\nfn main() {}\n' | rust --emit metadata -o "$built/unused" -
    for name in listing calls; do
        rust "examples/$name.rs" -o "$built/${name}_$edition"
    done
    "$built/calls_$edition" crates/listing/stdin | cmp - examples/calls_rust.out
done

for listing in listing listing_2021 listing_2024; do
    "$built/$listing" <crates/listing/stdin | cmp - crates/listing/stdout
    "$built/$listing" </dev/null | cmp - examples/stub.listing
done
"$built/calls" <crates/listing/stdin | cmp - examples/calls.out
"$built/foretold" <crates/listing/stdin
echo "examples: what they print is as expected"
