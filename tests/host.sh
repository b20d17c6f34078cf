# For the scripts beside it and in examples/, from the repository's root: installs what a host lacks, builds Rust programs for this
# host, and C and Fortran programs on the library's archive. The kit compiles for x86-64. On an Arm host a C or Fortran program is
# built for x86-64 too and run under a kit's emulator, where it has one, as the listing program is, with the libraries of Debian's cross compilers.

out=target/tests
mkdir -p "$out" || exit 2
# What a `make check` around this was told is not for the makes in here.
unset MAKEFLAGS MAKELEVEL DESTDIR PREFIX

# Ends with a failed check, since the gate counts by the last line.
give_up() {
    echo "$1"
    echo "0 passed, 1 failed"
    exit 1
}

# The checks of a script are counted.
passed=0 failed=0

# same LABEL FILE FILE: what is, and what must be
same() {
    if difference=$(diff -a "$2" "$3"); then
        passed=$((passed + 1))
    else
        failed=$((failed + 1))
        printf '%s: what is (<), and what must be (>)\n%s\n' "$1" "$difference"
        return 1
    fi
}

# prints LABEL STATUS FILE COMMAND ..: the command prints what stands in FILE and ends with STATUS. What it says on standard error
# is left in $out/said.
prints() {
    local label=$1 status=$2 file=$3
    shift 3
    "$@" >"$out/printed" 2>"$out/said"
    echo "exit status $?" >>"$out/printed"
    { cat "$file" && echo "exit status $status"; } >"$out/must_be_printed"
    same "$label" "$out/printed" "$out/must_be_printed" || cat "$out/said"
}

end_checks() {
    echo "$passed passed, $failed failed"
    [ "$failed" -eq 0 ]
    exit
}

# `patience` is after how many seconds a program is taken to run on. A listing of many rows takes far longer under an emulator: beside
# other work one was seen to take over a minute.
case $(uname -m) in
aarch64 | arm64)
    compiler=x86_64-linux-gnu-gcc fortran=x86_64-linux-gnu-gfortran
    compiler_packages=(gcc-x86-64-linux-gnu libc6-dev-amd64-cross) fortran_packages=(gfortran-x86-64-linux-gnu)
    tools=$(cd "$(dirname "$(readlink -f "$(command -v rt)")")/.." && pwd -P)/on/aarch64/toolchain
    # nothing is linked statically: the libm.a that these compilers bring in Debian 12 names files of an x86-64 host
    runner=("$tools/bin/qemu-x86_64" -L /usr/x86_64-linux-gnu)
    program_runner=("$tools/bin/qemu-x86_64" "$tools/lib/ld-linux-x86-64.so.2" --library-path "$tools/lib")
    patience=600
    ;;
*)
    compiler=gcc fortran=gfortran
    compiler_packages=(gcc libc6-dev) fortran_packages=(gfortran libc6-dev)
    runner=() program_runner=()
    patience=60
    ;;
esac

# need PROGRAM PACKAGES ..: a program, installed from Debian's packages where it is missing
need() {
    local program=$1
    shift
    command -v "$program" >/dev/null && return
    echo "no $program: apt-get installs $*"
    { apt-get update && DEBIAN_FRONTEND=noninteractive apt-get install -y --no-install-recommends "$@"; } \
        >"$out/apt-get.log" 2>&1 </dev/null && command -v "$program" >/dev/null ||
        give_up "no $program, and apt-get cannot install $*: see $out/apt-get.log"
}
need_compiler() { need "$compiler" "${compiler_packages[@]}"; }
need_fortran() { need "$fortran" "${fortran_packages[@]}"; }
# rustc links with the host's own compiler
need_rust() { need cc gcc libc6-dev && need rustc rustc; }
# on an Arm host the Rust example is left out, and valgrind, which reads the C library's symbols, runs no x86-64 program
need_cargo() { [ "${#runner[@]}" -gt 0 ] || need cargo cargo; }
need_valgrind() { [ "${#runner[@]}" -gt 0 ] || need valgrind valgrind libc6-dbg; }
need_make() { need make make; }
need_pkg_config() { need pkg-config pkg-config; }

# rust_library NAME [FILE] and rust_program NAME FILE [WORDS ..]: a library is made from tests/NAME/lib.rs, or from FILE
rust_library() {
    need_rust
    rustc -O --edition 2021 --crate-type rlib --crate-name "$1" "${2:-tests/$1/lib.rs}" --out-dir "$out" || give_up "$1 does not compile"
}
rust_program() {
    local name=$1 file=$2
    shift 2
    need_rust
    rustc -O --edition 2021 --crate-name "$name" "$file" -o "$out/$name" "$@" || give_up "$name does not compile"
}

# made FILE LOG: has make bring up to date what is built, proved first if anything under crates/ is newer. make is asked, since `rt lib`
# proves its crate each time, and `rt run` proves the programs again that `rt ci` has proved and left.
made() {
    need_make
    make "$1" >"$out/$2.log" 2>&1 || give_up "make $1: $(grep -v '^make' "$out/$2.log" | tail -n 1) (see $out/$2.log)"
}

# Sets `archive`: TARN_ARCHIVE if that is set, else that of crate `tarnsatchel`.
need_archive() {
    archive=${TARN_ARCHIVE:-crates/tarnsatchel/out/libtarnsatchel.a}
    [ -n "${TARN_ARCHIVE:-}" ] || made "$archive" archive
    [ -f "$archive" ] || give_up "no archive $archive"
}

# need_built NAME [FILE]: sets `built`, the command of the program of crate NAME, or of FILE
need_built() {
    local name=$1 file=${2:-crates/$1/out/$1}
    [ -n "${2:-}" ] || made "$file" "$name"
    [ -x "$file" ] || give_up "no program $file"
    built=("${program_runner[@]}" "$file")
}
# Set `program` and `tree`, the commands of the listing program and of the one for bracketed texts: TARN_PROGRAM and TARN_TREE if they
# are set, else the crates `list` and `tree`.
need_program() { need_built list "${TARN_PROGRAM:-}" && program=("${built[@]}"); }
need_tree() { need_built tree "${TARN_TREE:-}" && tree=("${built[@]}"); }

# c_program NAME FILE [WORDS ..]: the archive by its path, since another one may have any name. (tests/install.sh links with -l.)
c_program() {
    local name=$1 file=$2
    shift 2
    "$compiler" -O2 -std=c11 -Wall -Wextra -Iinclude "$@" "$file" "$archive" -o "$out/$name" ||
        give_up "$name does not compile or link"
}

# fortran_program NAME FILES ..
fortran_program() {
    local name=$1
    shift
    "$fortran" -O2 -std=f2018 -Wall -Wextra -J"$out" "$@" "$archive" -o "$out/$name" ||
        give_up "$name does not compile or link"
}
