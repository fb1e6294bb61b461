#!/usr/bin/env bash
# Proves and builds the static library, builds the example in C with it, and runs it on the example run.
set -euo pipefail
cd "$(dirname "${BASH_SOURCE[0]}")/../.."

(cd crates/margin_c && rt lib) >&2
# of the C library it needs these two, and nothing else
diff <(nm -u crates/margin_c/out/libmargin_c.a | awk '$1 == "U" { print $2 }' | sort -u) <(printf 'memmove\nmemset\n')
mkdir -p out
for name in margin_example margin_edges; do
    cc -std=c11 -O2 -Wall -Wextra -Werror -pthread -Iinclude \
        -o "out/$name" "examples/c/$name.c" crates/margin_c/out/libmargin_c.a
done

out/margin_edges examples/run.txt
out/margin_example examples/run.txt | tee out/statement.txt
diff examples/statement.txt out/statement.txt
