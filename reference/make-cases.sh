#!/bin/sh
# Writes the case books and their judgements to crates/judge_cases.
# With --check, compares them with the stored files instead.
set -eu

here=$(cd "$(dirname "$0")" && pwd)
root=$(dirname "$here")
stored=$root/crates/judge_cases
target=${CARGO_TARGET_DIR:-${TMPDIR:-/tmp}/wedrinop-reference}
reference=$target/release/reference

build() {
    CARGO_TARGET_DIR=$target cargo build --quiet --release --offline --manifest-path "$here/Cargo.toml"
    "$reference" check
}

# Writes the two files to the folder $1.
write_to() {
    "$reference" cases > "$1/stdin"
    "$reference" judge < "$1/stdin" > "$1/stdout"
}

check() {
    fresh=$(mktemp -d)
    trap 'rm -rf "$fresh"' EXIT
    write_to "$fresh"
    for name in stdin stdout; do
        if ! cmp -s "$fresh/$name" "$stored/$name"; then
            echo "make-cases: crates/judge_cases/$name is not what the reference makes" >&2
            exit 1
        fi
    done
}

case "${1-}" in
    '')
        build
        mkdir -p "$stored"
        write_to "$stored"
        ;;
    --check)
        build
        check
        ;;
    *)
        echo "usage: make-cases.sh [--check]" >&2
        exit 2
        ;;
esac
