# shellcheck shell=bash
# Bad instructions for the scripts that hear what the programs say of them; sourced by them, in bash, from the repository's root. Each stands as instruction 5 of
# program 2, among three programs of 2, 2 and 8 instructions, of which all others are end.

# The rows of tests/bad-instructions.txt: number|bytes|line|words
bad_instructions() {
  sed -n '/^[0-9]/s/ *| */|/gp' tests/bad-instructions.txt
}

# ends N: so many instructions end, as bytes
ends() {
  head -c $((4 * $1)) /dev/zero
}

# bad_image OPERATION A B C: an image with this instruction
bad_image() {
  printf '\3\0\1\0\014\0\024\0\034\0\074\0'
  ends $((2 + 2 + 5))
  printf '%b' "$(printf '\\x%02x' "$@")"
  ends 2
}

# end_lines N: so many lines end
end_lines() {
  local line
  for ((line = 0; line < $1; line++)); do
    echo 'end 0 0 0'
  done
}

# bad_sheet LINE: a sheet with this line
bad_sheet() {
  printf 'rule 1\nprogram\n'
  end_lines 2
  printf 'program\n'
  end_lines 2
  printf 'program\n'
  end_lines 5
  printf '%s\n' "$1"
  end_lines 2
}
