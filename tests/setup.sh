#!/usr/bin/env bash
# Installs all that the gate needs and the host lacks, before anything is proved: where that fails the gate says so at once.
set -u
cd "$(dirname "$0")/.." || exit 2
. tests/host.sh
need_rust
need_cargo
need_compiler
need_fortran
need_valgrind
need_make
need_pkg_config
