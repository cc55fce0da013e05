# shellcheck shell=bash
# How the files of examples/ are read; sourced by the scripts that run programs on them, in bash, from the repository's root. NAME is examples/ and a name.

# has_guards NAME: whether pairs of guards stand behind its cells, so that guarded and guarded_why read it
has_guards() {
  [ "$1" = examples/heater ]
}

# cell_count NAME: T, the number of its cells
cell_count() {
  od -An -v -tu2 --endian=little -N 2 "$1.bin" | tr -d ' '
}

# cells_end NAME, guards_end NAME: the bytes of NAME.bin up to where its cells end, and its guards, if it has any; then comes the image
cells_end() {
  echo $((2 + 4 * $(cell_count "$1")))
}
guards_end() {
  if has_guards "$1"; then echo $((2 + 12 * $(cell_count "$1"))); else cells_end "$1"; fi
}
