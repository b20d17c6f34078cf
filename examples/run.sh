#!/usr/bin/env bash
# Compiles the two examples in C, in Fortran and in Rust and runs each, one on the streams, the other on typed trees; what they print
# is held to what must come out, which was worked out by hand and by trying all markings (examples/streams/*.md, examples/README.md),
# and their exit status to what examples/README.md says. The last line is 'N passed, M failed'.
# TARN_ARCHIVE=FILE takes another archive than that of crate `tarnsatchel`.
set -u
cd "$(dirname "$0")/.." || exit 2
. tests/host.sh
out=target/examples
mkdir -p "$out" || exit 2

# the ninth branch rule is cut: the tree's 30 bytes, the head, 4 leaf rules and 8 branch rules stand before it
head -c 100 examples/streams/pairs.stream >"$out/cut.stream"

# show LANGUAGE COMMAND ..: on both streams, with builds and a question that are refused, and with words that it cannot take
show() {
    local language=$1
    shift
    prints "$language, pairs" 0 examples/streams/pairs.expected "$@" examples/streams/pairs.stream 1 2 2 13 8 13
    prints "$language, triples" 0 examples/streams/triples.expected "$@" examples/streams/triples.stream 0 2 1 10 10 1 8
    prints "$language, no stream" 1 <(echo 'build refused 1 at 0') "$@" /dev/null 0 0 1 0 0
    prints "$language, pairs cut" 1 <(echo 'build refused 3 at 97') "$@" "$out/cut.stream" 0 0 1 0 0
    prints "$language, place 3 of pairs" 1 <(sed '/^place 2/,$d' examples/streams/pairs.expected && echo 'project refused 7') \
        "$@" examples/streams/pairs.stream 1 2 3 13 8 13
    prints "$language, no such file" 2 /dev/null "$@" "$out/none" 0 0 1 0 0
    prints "$language, too few words" 2 /dev/null "$@" examples/streams/pairs.stream
}

# repeat NUMBER WORDS: so many times, one behind the other
repeat() { printf "$2%.0s" $(seq "$1"); }
# The most written nodes, 2,047 of label 63: all but the root in a row inside of it, and each inside of the one before. Of a row the
# children's pads come first, then the pad behind the last child, then the children, the last first. From the innermost outwards each has
# a pad and itself, but the innermost two pads.
printf '%s\n' "tree$(repeat 2047 ' 1 0')$(repeat 2046 ' 2 63') 1 0 2 63" 'rows 2047' 4094 $(seq 4092 -1 2047) \
    "text 63(63$(repeat 2045 ' 63'))" >"$out/row"
printf '%s\n' "tree 1 0$(repeat 2047 ' 1 0 2 63')" 'rows 2047' $(seq 4094 -2 2) "text 63$(repeat 2046 '(63')$(repeat 2046 ')')" >"$out/nest"

# typed LANGUAGE COMMAND ..: on a tree that is not written canonically, on README.md's, on the shortest, with the label that pads have, on
# the most nodes, on texts that are refused, with a label that the query refuses, and with words that it cannot take
typed() {
    local language=$1
    shift
    prints "$language, a typed tree" 0 examples/typed.expected "$@" 5 '9 (5 6()  9(5 6 6)) ! 5 // 6'
    prints "$language, seven nodes" 0 <(printf '%s\n' 'tree 1 0 1 0 1 0 2 6 2 5 1 0 2 9' 'rows 1' 3 'text 9(5 6)') "$@" 6 '9(5 6)'
    prints "$language, a label that is not there" 0 <(printf '%s\n' 'tree 1 0 1 0 2 0' 'rows 0' 'text 0') "$@" 5 '0()'
    prints "$language, label 0 and no pad" 0 <(printf '%s\n' 'tree 1 0 1 0 2 0 1 0 2 0' 'rows 2' 4 2 'text 0(0)') "$@" 0 '0(0)'
    prints "$language, a row of the most nodes" 0 "$out/row" "$@" 63 "63($(repeat 2046 ' 63'))"
    prints "$language, a nest of the most nodes" 0 "$out/nest" "$@" 63 "63$(repeat 2046 '(63')$(repeat 2046 ')')"
    prints "$language, a slash" 1 <(echo 'text_to_tree refused 15') "$@" 5 '9(5 / 6)'
    prints "$language, no text" 1 <(echo 'text_to_tree refused 15') "$@" 5 ''
    prints "$language, no UTF-8" 1 <(echo 'text_to_tree refused 15') "$@" 5 $'\xff'
    local label
    # 6 bytes of the tree, then 9 of the query stand before the rule for the label
    for label in 64 255; do
        prints "$language, label $label" 1 <(printf '%s\n' 'tree 1 0 1 0 2 9' 'build refused 3 at 15') "$@" "$label" 9
    done
    for label in x 300 99999999999999999999 '' -1 +5 ' 5' 5x 5,6 $'\xff'; do
        prints "$language, label '$label'" 2 /dev/null "$@" "$label" 9
        same "$language, label '$label': what is said" "$out/said" <(echo 'LABEL is no number from 0 to 255')
    done
    prints "$language, one word" 2 /dev/null "$@" '9(5 6)'
}

for stream in pairs triples; do
    bash examples/streams/bytes.sh <"examples/streams/$stream.txt" | od -An -v -tu1 >"$out/made"
    same "$stream.stream and its text" <(od -An -v -tu1 "examples/streams/$stream.stream") "$out/made"
done

need_archive
need_compiler
c_program show_c examples/c/show.c
show C "${runner[@]}" "$out/show_c"
c_program typed_c examples/c/typed.c
typed C "${runner[@]}" "$out/typed_c"
need_fortran
fortran_program show_fortran bindings/fortran/tarnsatchel.f90 examples/fortran/show.f90
show Fortran "${runner[@]}" "$out/show_fortran"
fortran_program typed_fortran bindings/fortran/tarnsatchel.f90 examples/fortran/typed.f90
typed Fortran "${runner[@]}" "$out/typed_fortran"
if [ "${#runner[@]}" -gt 0 ]; then
    echo "Rust is left out: the archive is x86-64 code, and this host has no x86-64 standard library of Rust"
else
    need_rust
    need_cargo
    # cargo finds the library's archive itself; another one by its whole path, since bindings/rust/build.rs runs in its own folder
    [ -z "${TARN_ARCHIVE:-}" ] || export TARN_ARCHIVE="$(readlink -f "$TARN_ARCHIVE")"
    cargo build -q --release --locked --offline --manifest-path examples/rust/Cargo.toml --target-dir "$out/cargo" ||
        give_up "the Rust examples do not compile or link"
    show Rust "$out/cargo/release/show"
    typed Rust "$out/cargo/release/typed"
fi
end_checks
