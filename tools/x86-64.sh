# shellcheck shell=bash
# Programs and the archive are x86-64 code. What the scripts share that compile, link or run such code on any machine; sourced by them, in bash.

# Says in one line what is missing, and ends.
missing() {
    echo "missing: $1" >&2
    exit 1
}

# Whether this machine runs x86-64 code itself.
native() {
    [ "$(uname -m)" = x86_64 ]
}

# Where the kit lies: in bin/ it has its own commands, in toolchain/ a compiler, a linker and a C library.
kit_folder() {
    command -v rt >/dev/null || missing "rt (the Rattle kit)"
    local kit
    kit=$(dirname "$(rt doc </dev/null)")
    [ -d "$kit/toolchain" ] || missing "the toolchain of the Rattle kit"
    echo "$kit"
}
