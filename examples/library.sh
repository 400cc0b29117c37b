#!/usr/bin/env bash
# examples/library.sh FOLDER
#
# Builds and runs the examples in C, Rust and Python over the library in a folder, as `./ndc library --to FOLDER` leaves it,
# and compares the dumps that each shows with those of `ndc run` on the same events. The program is that which the
# environment names as NDC, or crates/ndc_tool/out/ndc_tool. What is not installed is skipped, and told.
set -euo pipefail
cd "$(dirname "$0")/.."

if [ $# -ne 1 ]; then
    echo "words: examples/library.sh FOLDER" >&2
    exit 2
fi
library=$(realpath "$1")
ndc=${NDC:-crates/ndc_tool/out/ndc_tool}
script=examples/node/two-centres.ndc
room=$(mktemp -d)
trap 'rm -rf "$room"' EXIT

# The answers to the lines that show a dump.
first=$(grep -n -m 1 '^dump ' "$script" | cut -d : -f 1)
"$ndc" run <"$script" | sed -n "/^$first ok /,\$p" >"$room/wanted"
if ! grep -q '^end$' "$room/wanted"; then
    echo "FAIL ndc run shows no dump" >&2
    exit 1
fi

# Runs an example by its name and its words, and compares.
run() {
    local name=$1
    shift
    if ! "$@" "$script" >"$room/$name.out" 2>"$room/$name.err" ||
        ! cmp "$room/wanted" "$room/$name.out"; then
        cat "$room/$name.err" >&2
        echo "FAIL $name" >&2
        exit 1
    fi
    echo "ok   $name: the dumps are those of ndc run; $(tail -n 2 "$room/$name.err" | tr '\n' ';')"
}

# Whether a program is there; tells of an example that is skipped without it.
has() {
    command -v "$1" >/dev/null && return 0
    echo "skip $2: no $1"
    return 1
}

if has gcc C; then
    gcc -std=c11 -Wall -Wextra -Werror -O2 -g -I"$library" examples/c/two_centres.c \
        "$library/libndc_c.a" "$library/liblibc_c.a" -o "$room/two_centres"
    run C "$room/two_centres"
    if has valgrind 'C under valgrind'; then
        run C-under-valgrind valgrind --quiet --error-exitcode=99 --leak-check=full \
            --show-leak-kinds=all --errors-for-leak-kinds=all "$room/two_centres"
    fi
fi
if has cargo Rust && has cc Rust; then
    NDC_LIBRARY=$library cargo build --quiet --offline --release \
        --manifest-path examples/rust/Cargo.toml --target-dir "$room/rust"
    run Rust "$room/rust/release/two_centres"
fi
if has python3 Python && has gcc Python; then
    gcc -shared -o "$room/libndc.so" -Wl,--whole-archive "$library/libndc_c.a" \
        -Wl,--no-whole-archive "$library/liblibc_c.a"
    PYTHONDONTWRITEBYTECODE=1 run Python python3 examples/python/two_centres.py "$room/libndc.so"
fi
