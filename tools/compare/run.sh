#!/bin/sh
# Compares the exported functions with the libm source, measures both, or lists libm's answers; see
# README.md.
usage() {
    echo "usage: run.sh [--library FILE] LIBM_FOLDER compare|speed [--threads N] [FUNCTION...]" >&2
    echo "       run.sh LIBM_FOLDER list" >&2
    exit 2
}
set -eu
here=$(cd "$(dirname "$0")" && pwd -P)
root=$(cd "$here/../.." && pwd -P)

library=
if [ "${1-}" = --library ]; then
    [ $# -ge 2 ] || usage
    library=$(realpath "$2")
    shift 2
fi
[ $# -ge 2 ] || usage
[ -d "$1/src/math" ] || { echo "run.sh: $1 has no folder src/math" >&2; exit 2; }
math=$(cd "$1/src/math" && pwd -P)
shift

program=main
if [ "$1" = list ]; then
    [ $# = 1 ] && [ -z "$library" ] || usage
    program=list
elif [ -z "$library" ]; then
    "$root/tools/staticlib.sh" >&2
    library=$root/target/staticlib/libexports.a
fi
[ $program = list ] || [ -f "$library" ] || { echo "run.sh: no file $library" >&2; exit 2; }

build=$(mktemp -d)
trap 'rm -rf "$build"' EXIT
trap 'exit 130' INT
trap 'exit 143' TERM

# The libm crate: the glue, with each libm file linked into its place.
cp -R "$here/glue" "$build/libm"
for file in \
    acos acosf asin asinf atan atan2 atan2f atanf fabs sqrt \
    generic/sqrt support/env support/float_traits support/int_traits
do
    [ -f "$math/$file.rs" ] || { echo "run.sh: no file $math/$file.rs" >&2; exit 2; }
    ln -s "$math/$file.rs" "$build/libm/math/$file.rs"
done
rustc --edition 2021 --crate-name libm_source --crate-type rlib --cap-lints allow \
    -C opt-level=3 -C codegen-units=1 --out-dir "$build" "$build/libm/lib.rs"

rustc --edition 2024 --crate-name inputs --crate-type rlib -C opt-level=3 -C codegen-units=1 \
    --out-dir "$build" "$here/src/inputs/lib.rs"

rustc --edition 2024 -C opt-level=3 -C codegen-units=1 \
    --extern libm_source="$build/liblibm_source.rlib" --extern inputs="$build/libinputs.rlib" \
    ${library:+-C link-arg="$library"} -o "$build/$program" "$here/src/$program.rs"

"$build/$program" "$@"
