#!/usr/bin/env bash
# Installs with the Makefile into folders of its own and uses what is there as README.md says, its commands letter by letter: in a
# folder outside of the repository, where only pkg-config can tell what is where. What the programs print is held to what the
# examples expect, which was worked out by hand. The last line is 'N passed, M failed'.
# TARN_ARCHIVE=FILE, TARN_PROGRAM=FILE and TARN_TREE=FILE have another archive, listing program and program `tree` installed.
set -u
cd "$(dirname "$0")/.." || exit 2
. tests/host.sh
out=target/tests/install
rm -rf "$out" && mkdir -p "$out/bin" || exit 2
need_make
need_pkg_config
need_compiler
need_fortran
away=$(mktemp -d) || exit 2
trap 'rm -rf "$away"' EXIT
prefix=$away/prefix stage=$away/stage

# makes WORDS ..: what follows cannot be tried where it fails
makes() {
    make "$@" ${TARN_ARCHIVE:+"ARCHIVE=$TARN_ARCHIVE"} ${TARN_PROGRAM:+"PROGRAM=$TARN_PROGRAM"} \
        ${TARN_TREE:+"TREE=$TARN_TREE"} >"$out/make.log" 2>&1 </dev/null ||
        give_up "make $*: $(tail -n 1 "$out/make.log") (see $out/make.log)"
}
# the files of a folder, each with its mode
files() { (cd "$1" && find . ! -type d -printf '%m %P\n') | LC_ALL=C sort -k 2; }

# ---- what is installed

cat >"$out/files" <<'FILES'
755 bin/tarnsatchel-list
755 bin/tarnsatchel-tree
644 include/tarnsatchel.f90
644 include/tarnsatchel.h
644 lib/libtarnsatchel.a
644 lib/pkgconfig/tarnsatchel.pc
FILES
makes install PREFIX="$prefix"
same "what is installed" <(files "$prefix") "$out/files"
makes install PREFIX="$prefix"
same "what is installed twice" <(files "$prefix") "$out/files"
# a package is for all, whoever makes it
mask=$(umask) && umask 077
makes install DESTDIR="$stage" PREFIX=/usr/local
umask "$mask"
same "what is staged" <(files "$stage") <(sed 's, , usr/local/,' "$out/files")
prints "a PREFIX from nowhere" 2 /dev/null make install PREFIX=usr
prints "a PREFIX of two words" 2 /dev/null make install PREFIX="$away/two words"

# ---- what pkg-config says

unset PKG_CONFIG_PATH PKG_CONFIG_SYSROOT_DIR
# shown PATTERN: what its group stands for, in the lines of README.md's section that it matches
shown() { sed -n "/^## Install it/,/^## /s/$1/\1/p" README.md; }
says() { PKG_CONFIG_LIBDIR=$1/lib/pkgconfig pkg-config "${@:2}" tarnsatchel; }
words=$(shown '.*`\(-I[^`]*\)`.*')
[ -n "$words" ] || give_up "README.md does not show what pkg-config says"
# the staged file names the folder it is meant for, and not the stage
same "what README.md shows" <(says "$stage/usr/local" --cflags --libs | xargs) <(echo "$words")
same "the same of another PREFIX" <(says "$prefix" --cflags --libs | xargs) <(echo "${words//\/usr\/local/$prefix}")
same "the version" <(says "$prefix" --modversion) <(sed -n 's/^version = "\(.*\)"$/\1/p' bindings/rust/Cargo.toml)

# ---- README.md's commands

# On an Arm host its words mean the cross compilers, and the programs under the emulator.
stand_in() { printf '#!/bin/sh\nexec %s "$@"\n' "${*:2}" >"$out/bin/$1" && chmod +x "$out/bin/$1"; }
if [ "${#runner[@]}" -gt 0 ]; then
    stand_in gcc "$compiler"
    stand_in gfortran "$fortran"
    for installed in tarnsatchel-list tarnsatchel-tree; do
        stand_in "$installed" "${program_runner[@]}" "$prefix/bin/$installed"
    done
fi
cp examples/c/show.c examples/fortran/show.f90 examples/streams/{pairs.stream,names.tree,names.txt,bytes.sh} "$away" || exit 2
path=$PWD/$out/bin:$prefix/bin:$PATH
in_away() { (cd "$away" && PATH=$path PKG_CONFIG_LIBDIR=$prefix/lib/pkgconfig bash -c "$1"); }
# readme_prints WORD FILE: the command that begins with the word
readme_prints() {
    local command
    command=$(shown "^    \\($1 .*\\)")
    [ -n "$command" ] || give_up "README.md shows no command $1"
    prints "$1" 0 "$2" in_away "$command"
}
for compiles in gcc gfortran; do
    rm -f "$away/show"
    readme_prints "$compiles" /dev/null
    prints "$compiles, pairs" 0 examples/streams/pairs.expected \
        "${runner[@]}" "$away/show" examples/streams/pairs.stream 1 2 2 13 8 13
    prints "$compiles, triples" 0 examples/streams/triples.expected \
        "${runner[@]}" "$away/show" examples/streams/triples.stream 0 2 1 10 10 1 8
done
readme_prints tarnsatchel-list <(printf 'records 11\nrows 3\n4 5\n8 13\n11 13\n')
readme_prints '{ tarnsatchel-tree' <(printf 'records 11\nrows 3\n8 27\n17 26\n20 26\n')
echo '9(5 / 6)' >"$away/slash.tree"
piped=$(shown '^    \({ tarnsatchel-tree .*\)')
prints "a tree that is refused, before a query" 0 <(echo 'refused 1 at 0') in_away "${piped/names.tree/slash.tree}"

# ---- the programs, of which README.md says what they ask of a host and with what they end

asks() {
    local -x LC_ALL=C
    local readelf=${compiler%gcc}readelf
    "$readelf" -lW "$1" | sed -n 's/.*interpreter: \(.*\)]/\1/p'
    "$readelf" -dW "$1" | sed -n 's/.*(\(NEEDED\|RPATH\|RUNPATH\)).*\[\(.*\)\]/\2/p'
    "$readelf" -VW "$1" | grep -o 'GLIBC_[0-9.]*' | sort -Vu | tail -n 1
}
for installed in tarnsatchel-list tarnsatchel-tree; do
    same "what $installed asks of a host" <(asks "$prefix/bin/$installed") \
        <(printf '%s\n' /lib64/ld-linux-x86-64.so.2 libc.so.6 "GLIBC_$(shown '.*glibc \([0-9.]*[0-9]\) .*')")
done
prints "an empty stream" 0 <(echo 'refused 1 at 0') env -i "${program_runner[@]}" "$prefix/bin/tarnsatchel-list" </dev/null
prints "an empty text" 0 <(echo 'refused 15') env -i "${program_runner[@]}" "$prefix/bin/tarnsatchel-tree" </dev/null

# ---- taken away

makes uninstall PREFIX="$prefix"
makes uninstall DESTDIR="$stage" PREFIX=/usr/local
same "what is left" <(files "$prefix" && files "$stage") /dev/null
end_checks
