#!/bin/sh
# Proves the crates and writes target/staticlib/libtikuwero.a, which C and Rust link: the archive of the crate tikuwero_c under the name that
# its callers know.
set -eu
cd "$(dirname "$0")/.."
(cd crates/tikuwero_c && rt lib)
mkdir -p target/staticlib
cp crates/tikuwero_c/out/libtikuwero_c.a target/staticlib/libtikuwero.a
