# For tests/run and tests/measure, which source it at the repository's top. What it builds for this machine stands in
# target/native.
for needed in rt gcc rustc python3; do
    command -v "$needed" >/dev/null || { echo "$0: $needed is missing, and the tests need it" >&2; exit 1; }
done
mkdir -p target/native

# Runs a command, and shows what it said only where it fails.
quietly() {
    local said
    said=$("$@" 2>&1) || { printf '%s\n' "$said" >&2; echo "$0: failed: $*" >&2; exit 1; }
}

# Holds what a command prints to a file.
expect_output() { # FILE COMMAND...
    "${@:2}" | cmp - "$1" || { echo "$0: $1 is not what this prints: ${*:2}" >&2; exit 1; }
}

# Proved programs. rt runs what it builds: with nothing on standard input, and where a program takes words, for its help.
build_programs() { # NAME...
    local name
    for name; do
        (cd "crates/$name" && quietly rt run -- --help </dev/null)
        cp "crates/$name/out/$name" target/native
    done
}

build_host() { # to libhost.a
    (cd crates/host_c && quietly rt lib)
    cp crates/host_c/out/libhost_c.a target/native/libhost.a
}

build_over_host() { # NAME, of tests/NAME.c
    quietly gcc -std=c99 -O3 -pthread -Wall -Wextra -Iinclude "tests/$1.c" target/native/libhost.a -o "target/native/$1"
}

# The independent replay, a program of its own that shares nothing with the crates.
build_independent() { # SOURCE OUT WORDS...
    quietly rustc -O --edition 2021 -D warnings "${@:3}" "tests/independent/$1" -o "target/native/$2"
}
