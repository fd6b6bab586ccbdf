#!/usr/bin/env bash
# The C interface: what the header declares, what the library holds, the example in C and in C++, and the stack that a call takes.
# DESK_LIB_DIR names another folder with a libdesk.a.
set -u
cd "$(dirname "$0")/.." || exit 1
library=${DESK_LIB_DIR:-target/staticlib}/libdesk.a
example=examples/c/desk_example
room=$(mktemp -d)
trap 'rm -rf "$room"' EXIT
failed=0

# told WHAT TEST..: a failure is said and kept
told() {
  local what=$1
  shift
  "$@" || { echo "c_interface.sh: $what"; failed=1; }
}

need_library() {
  [ -e "$library" ] || [ -n "${DESK_LIB_DIR-}" ] || tools/build desk_c
  [ -e "$library" ] || { echo "c_interface.sh: no $library"; exit 1; }
}

# what is declared is what is there; no writable data; nothing is called but C's memory functions
symbols() {
  nm "$library" > "$room/symbols"
  grep -oE '^uint[0-9]+_t desk_[a-z_]+' include/desk.h | cut -d ' ' -f 2 | sort > "$room/declared"
  awk '$2 == "T" { print $3 }' "$room/symbols" | sort > "$room/defined"
  told 'the header and the library have other functions' diff "$room/declared" "$room/defined"
  told 'the library has data of its own' [ -z "$(awk '$2 ~ /^[DdBbC]$/ { print $3 }' "$room/symbols")" ]
  told 'the library calls another function' \
    [ -z "$(awk '$1 == "U" { print $2 }' "$room/symbols" | grep -vxE 'mem(set|cpy|move|cmp)|bcmp')" ]
}

# runs COMPILER..: the example has no warning, prints what is stored and ends with status 0
runs() {
  rm -f "$room/example"
  told "$* fails" "$@" -Wall -Wextra -Werror -pedantic -Iinclude "$example.c" -x none "$library" -o "$room/example"
  [ -e "$room/example" ] || return
  told "the example of $* is not as expected" "$room/example" > "$room/out"
  told "the example of $* prints something else" diff "$example.out" "$room/out"
}

# a call takes less stack than the header says
stack() {
  told 'tests/stack_depth.c fails' \
    gcc -std=gnu99 -Wall -Wextra -Werror -pedantic -Iinclude tests/stack_depth.c "$library" -o "$room/stack_depth"
  told 'a call takes more stack than promised' "$room/stack_depth"
}

told 'the header declares something else than the crates' python3 tests/c_declarations.py
need_library
symbols
runs gcc -std=c99 -x c
runs g++ -std=c++11 -x c++
stack
exit "$failed"
