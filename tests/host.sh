# shellcheck shell=sh
# What the tests that run a C host of the library share; a test reads it by `.`, at the root of the repository. It ends
# the test where a tool is missing, builds the library, and makes a folder $work, which is gone at the end.
command -v rt >/dev/null || {
    echo "rt is not on the PATH: install the Rattle kit"
    exit 77
}
command -v cc >/dev/null || {
    echo "there is no C compiler: install Debian's packages gcc and libc6-dev, or run: make deps"
    exit 77
}
work=$(mktemp -d) || exit 1
trap 'rm -rf "$work"' EXIT

make --no-print-directory build/libgavberin.a >"$work/log" 2>&1 || {
    tail -n 20 "$work/log"
    exit 1
}
strict="-pedantic -O2 -ffp-contract=off -Wall -Wextra -Werror -I include"

# Compiles a host against the library, and runs it.
run_host() { # COMPILER-WORD..
    # shellcheck disable=SC2086 # flags
    cc $strict "$@" build/libgavberin.a -lm -lpthread -o "$work/host" && "$work/host"
}
