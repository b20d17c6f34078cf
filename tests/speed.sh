#!/usr/bin/env bash
# Times build and count, count, row by number, member, project and fix: the library, ordinary Rust with Vec (tests/speed/ordinary.rs),
# whose build is timed with and without its check for rules said twice, and for the questions plain passes that make the library's
# checks (tests/speed/plain.rs), in turns in one run; builds also of many rules and of the real streams of tests/fortran; and text to
# tree and tree to text, beside ordinary Rust with a tree of nodes, String and Vec (tests/speed/nodes.rs). Prints tables of medians.
# Their answers are compared too, so a run that ends well says that all give the same.
#   bash tests/speed.sh          with Rust 1.73 or newer
# Like with like: on an Arm host the archive's x86-64 code would run under an emulator and the Rust programs would not. There
# TARN_ARCHIVE must be the library compiled for the host, and TARN_NATIVE=1 says that it is.
set -u
cd "$(dirname "$0")/.." || exit 2
. tests/host.sh

if [ "${#runner[@]}" -gt 0 ] && [ "${TARN_NATIVE:-}" != 1 ]; then
    give_up "on this host the library runs under an emulator: set TARN_ARCHIVE and TARN_NATIVE=1 (see tests/speed.sh)"
fi
need_archive
rust_library tarnsatchel bindings/rust/src/lib.rs
rust_library fortran
rust_program speed tests/speed/main.rs --extern tarnsatchel="$out/libtarnsatchel.rlib" --extern fortran="$out/libfortran.rlib" \
    -C link-arg="$archive"
exec "$out/speed"
