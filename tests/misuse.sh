#!/usr/bin/env bash
# A reading can be used only as its order allows: the compiler refuses a row asked for before the sheet is opened,
# and a reading that is left open. Each misuse is one edit of a right use, which passes the same check; nothing is proved here.
set -euo pipefail
cd "$(dirname "${BASH_SOURCE[0]}")/.."
source tests/kit.sh

copy=$(mktemp -d)
trap 'rm -rf "$copy"' EXIT
mkdir "$copy/crates"
for crate in quantities text sheet; do
    mkdir "$copy/crates/$crate"
    cp -r "crates/$crate/src" "crates/$crate/specs" "crates/$crate/proofs" "$copy/crates/$crate"
done
echo 'pub mod usage;' >>"$copy/crates/sheet/src/lib.rt"
usage=$copy/crates/sheet/src/usage.rt

right_use() {
    cat >"$usage" <<'RUST'
use crate::input::Input;
use crate::kind::RowKind;
use crate::refusal::SheetRefusal;

pub fn has_a_row<K: RowKind>(input: &Input<'_>) -> Result<bool, SheetRefusal> {
    let mut reading = input.open::<K>()?;
    let row = reading.row();
    reading.give_up();
    row.map(|row| row.is_some())
}
RUST
}

# over the sources of the crates below: `rt check` proves those first where the use compiles
compiles() {
    (cd "$copy/crates/sheet" && "$rattle" check --crate-name sheet src/lib.rt "${std[@]}" --extern "core=$kit/rlibs/core.rlib" \
        --lib "quantities:core,std=$copy/crates/quantities/src/lib.rt" --lib "text:core,std=$copy/crates/text/src/lib.rt" \
        "${logic[@]}" --only "" 2>&1)
}

right_use
if ! said=$(compiles); then
    printf 'a right use does not compile:\n%s\n' "$said" >&2
    exit 1
fi

# refused LABEL LINE ERROR EDIT: the edit of the right use is refused by that error at that line, and by nothing else
refused() {
    right_use
    local before said
    before=$(cat "$usage")
    sed -i "$4" "$usage"
    if [ "$before" = "$(cat "$usage")" ]; then
        echo "$1: the edit changes nothing" >&2
        exit 1
    fi
    if said=$(compiles); then
        echo "$1: compiles" >&2
        exit 1
    fi
    if [ "$(grep -c 'error\[' <<<"$said")" != 1 ] || ! grep -qE "^src/usage\.rt:$2:[0-9]+: error\[$3\]" <<<"$said"; then
        printf '%s: not refused by %s at line %s:\n%s\n' "$1" "$3" "$2" "$said" >&2
        exit 1
    fi
    echo "$1: refused"
}

refused 'a row asked for before opening' 7 unknown-method 's/reading\.row()/input.row()/'
refused 'a reading left open' 6 linear-value-let-go '/reading\.give_up();/d'
refused 'a reading left open by an early return' 7 linear-value-let-go 's/reading\.row()/Ok(reading.row()?)/'
