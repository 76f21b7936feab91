#!/bin/sh
# Builds the C functions, and leaves their archive as target/staticlib/libexports.a.
set -eu
top=$(cd "$(dirname "$0")/.." && pwd -P)
cd "$top/crates/exports_c"
rt lib
mkdir -p "$top/target/staticlib"
cp out/libexports_c.a "$top/target/staticlib/libexports.a"
