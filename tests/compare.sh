#!/usr/bin/env bash
# Compares the library, through the driver, and its programs with independent ones, on many streams, questions, texts and images:
# `records` follows document 01 with plain vectors, `markings` tries all markings, both with what request 2026-02 says of pads and
# request 2026-04 of positions, and `texts` follows request 2026-01 with a tree of nodes.
# The counts of the real streams of tests/fortran are held to rows.txt there, which none of these programs made.
# The last line is 'N passed, M failed'.
#   bash tests/compare.sh [WORDS ..]         WORDS go to the comparison, as --seed 5; --stream 17, --listing 17, --group 17, --text 17,
#                                            --image 17, --typed 17 or --pair 17 shows one case
#   bash tests/compare.sh alone [WORDS ..]   the independent programs with each other: the test of the tests, with no driver, no
#                                            library and no program
# TARN_ARCHIVE=FILE takes another archive than that of crate `tarnsatchel`, TARN_PROGRAM=FILE another program than that of crate `list`,
# and TARN_TREE=FILE another than that of crate `tree`.
set -u
cd "$(dirname "$0")/.." || exit 2
. tests/host.sh

rust_library markings
rust_library records
rust_library texts
rust_library fortran
rust_program markings tests/markings/main.rs --extern markings="$out/libmarkings.rlib"
rust_program records tests/records/main.rs --extern records="$out/librecords.rlib"
rust_program texts tests/texts/main.rs --extern texts="$out/libtexts.rlib"
rust_program compare tests/compare/main.rs --extern markings="$out/libmarkings.rlib" --extern records="$out/librecords.rlib" \
    --extern texts="$out/libtexts.rlib" --extern fortran="$out/libfortran.rlib"
if [ "${1:-}" = alone ]; then
    shift
    exec "$out/compare" "$@"
fi
need_compiler
need_valgrind
need_archive
c_program driver tests/driver/driver.c
need_program
need_tree
# a program that runs on is ended, and has failed
exec "$out/compare" "$@" "${runner[@]}" "$out/driver" -- timeout "$patience" "${program[@]}" -- timeout "$patience" "${tree[@]}"
