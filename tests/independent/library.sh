#!/usr/bin/env bash
# Builds the static library for C over the libraries that `rt ci` has proved, as they are kept; what is not kept is proved now.
# `rt lib` builds the same, but over proofs of its own: it takes nothing that `rt ci` keeps.
# usage: tests/independent/library.sh FILE
set -euo pipefail
file=$(realpath -m "$1")
cd "$(dirname "${BASH_SOURCE[0]}")/../.."
source tests/kit.sh

copy=$(mktemp -d)
trap 'rm -rf "$copy"' EXIT

# the libraries that crates.txt names for a crate, those of the kit among them
libraries_of() {
    sed -nE "s/#.*//; s/^$1( [^:]*)?:(.*)/\2/p" crates.txt
}

# copies a crate and those that it stands on, without must-fail edits, which are tried already
take() {
    local part lower
    if [ ! -d "crates/$1" ] || [ -d "$copy/crates/$1" ]; then
        return 0
    fi
    mkdir -p "$copy/crates/$1"
    for part in src specs proofs; do
        if [ -d "crates/$1/$part" ]; then
            cp -r "crates/$1/$part" "$copy/crates/$1"
        fi
    done
    grep -E "^$1( [^:]*)?:" crates.txt >>"$copy/crates.txt"
    for lower in $(libraries_of "$1"); do
        take "$lower"
    done
}

git init -q "$copy"
take margin_c
cd "$copy"
if ! said=$(rt ci 2>&1); then
    printf '%s\n' "$said" >&2
    exit 1
fi

libraries=()
for lower in $(libraries_of margin_c); do
    if [ -d "crates/$lower" ]; then
        libraries+=(--extern "$lower=$copy/crates/$lower/out/rlib/$lower.rlib")
    else
        libraries+=(--extern "$lower=$kit/rlibs/$lower.rlib")
    fi
done
for folder in crates/*/out/rlib; do
    libraries+=(-L "dependency=$copy/$folder")
done
cd crates/margin_c
if ! said=$("$rattle" build --crate-name margin_c src/lib.rt "${std[@]}" "${libraries[@]}" "${logic[@]}" --jobs 2 \
    --links margin_c= --crate-type staticlib --toolchain "$kit/toolchain" --backend llvm -o "$file" 2>&1); then
    printf '%s\n' "$said" >&2
    exit 1
fi
