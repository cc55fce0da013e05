# shellcheck shell=bash
# What the scripts of tests/ and bench/ share: where things are built, and what they need.
# Sourced by them, in bash, from the repository's root. All that they build lies under target/tests; the archive is rt's.

. tools/x86-64.sh

built=target/tests
archive=crates/sheetbendle_c/out/libsheetbendle_c.a
driver=$built/driver

need_rustc() {
    command -v rustc >/dev/null || missing "rustc (1.82 or newer; no packages are used)"
}

# Builds one crate: its name, its first file, and what else rustc is to be told.
build() {
    local name=$1 file=$2
    shift 2
    mkdir -p "$built"
    rustc -O --edition 2021 -L "$built" --out-dir "$built" --crate-name "$name" "$@" "$file"
}

# The independent implementation, and what its tests are made of.
build_plain() {
    build plain tests/plain/lib.rs --crate-type rlib
    build material tests/material/lib.rs --crate-type rlib --extern plain
}

# The program that links the archive and makes its calls. It is started once on no call: where it cannot be run, that says why.
build_driver() {
    tools/cc tests/archive/driver.c "$driver"
    tools/run "$driver" </dev/null
}

# Its other end, which asks it for calls.
build_archive() {
    build archive tests/archive/lib.rs --crate-type rlib --extern plain
}
