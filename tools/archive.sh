#!/bin/sh
# archive.sh: proves and builds the library that callers in C and Rust link, target/staticlib/libexpander.a.
# What `rt check` has kept, in this checkout or in another on this machine, is not proved again.
# archive.sh --built, right behind an `rt ci` that passed here, stands on the libraries that it made, which rt itself would
# prove and make once more.
set -eu
cd "$(dirname "$0")/../crates/expander_c"
if [ "${1-}" = --built ]; then
    kit=$(dirname "$(rt doc)")
    needs=$(sed -n 's/^expander_c staticlib: *\([^#]*\).*/\1/p' ../../crates.txt)
    set -- --extern "std=$kit/rlibs/std.rlib" -L "dependency=$kit/rlibs"
    for name in $needs; do set -- "$@" --extern "$name=$PWD/../$name/out/rlib/$name.rlib"; done
    for folder in ../*/out/rlib; do set -- "$@" -L "dependency=$PWD/$folder"; done
    mkdir -p out
    "$kit/bin/rattle" build --crate-name expander_c --crate-type staticlib src/lib.rt "$@" \
        --antt-project "$kit/rattle/logic/antt-project.json" --logic-built "$kit/logic_built" \
        --toolchain "$kit/toolchain" --backend llvm -o out/libexpander_c.a
else
    rt lib
fi
mkdir -p ../../target/staticlib
cp out/libexpander_c.a ../../target/staticlib/libexpander.a
