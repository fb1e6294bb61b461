#!/usr/bin/env bash
# Runs the two programs, as `rt ci` or `rt run` has built them, over the streams of the system, of which no contract can speak:
# what they print where, their exit statuses, an input that is too long, a read that fails, and an output that is closed.
set -euo pipefail
cd "$(dirname "${BASH_SOURCE[0]}")/.."
made=$(mktemp -d)
trap 'rm -rf "$made"' EXIT
for program in margin positions; do
    install -m 755 "crates/$program/out/$program" "$made/$program"
done
export PATH=$made:$PATH

failed=0

# calls STATUS OUT ERR COMMAND: the shell command ends with that status, and prints just those texts
calls() {
    local status=0
    bash -c "$4" >"$made/out" 2>"$made/err" || status=$?
    if [ "$status" != "$1" ] || ! cmp -s "$made/out" <(printf '%s' "$2") || ! cmp -s "$made/err" <(printf '%s' "$3"); then
        echo "$4: status $status, where $1 is right; it printed:" >&2
        head -n 20 "$made/out" "$made/err" >&2
        failed=1
    fi
}

# fails OUT COMMAND: the shell command ends with status 1, prints just that text, and tells of an error
fails() {
    local status=0
    bash -c "$2" >"$made/out" 2>"$made/err" || status=$?
    if [ "$status" != 1 ] || ! cmp -s "$made/out" <(printf '%s' "$1") || ! [ -s "$made/err" ]; then
        echo "$2: status $status, where it should fail with status 1 and an error" >&2
        head -n 20 "$made/out" "$made/err" >&2
        failed=1
    fi
}

statement=$(cat crates/margin/stdout; echo x)
listing=$(cat crates/positions/stdout; echo x)
usage=$'usage: margin < RUN      (margin --help tells more)\n'
too_long=$'REFUSED;14;0;0;0;0\n'
too_long_words=$'the run has more than 65,536 bytes\n'
head -c 70000 /dev/zero >"$made/long"

calls 0 "${statement%x}" '' 'margin < crates/margin/stdin'
calls 0 "${statement%x}" '' 'cat crates/margin/stdin | margin'
calls 0 $'REFUSED;1;1;1;0;0\n' $'day line 1: it should be DAY and a version from 1 to 255, as DAY;1\n' 'margin < crates/positions/stdin'
calls 0 $'REFUSED;1;1;1;0;0\n' $'day line 1 is missing: it should be DAY and a version from 1 to 255, as DAY;1\n' 'margin < /dev/null'
calls 0 "$too_long" "$too_long_words" "margin < $made/long"
calls 0 "$too_long"$'4463\n' "$too_long_words" "{ margin; wc -c; } < $made/long"
calls 2 '' "$usage" 'margin more'
calls 2 '' "$usage" 'margin --help more'
calls 2 '' "$usage" 'margin "" < crates/margin/stdin'
calls 0 '' '' "margin --help | grep -q '^usage: margin < RUN$'"
calls 0 '' '' "cmp <(margin --help) <(margin -h)"
calls 0 "${listing%x}" '' 'positions < crates/positions/stdin'
calls 0 $'REFUSED;1;1;0\n' '' 'positions < crates/margin/stdin'
for program in margin positions; do
    fails '' "$program < /"
    fails '' "$program <&-"
    fails '' "$program < crates/$program/stdin >&-"
    fails '' "$program < crates/$program/stdin > /dev/full"
done
fails '' 'margin --help > /dev/full'
fails "$too_long" "margin < $made/long 2> /dev/full; status=\$?; echo told >&2; exit \$status"
exit $failed
