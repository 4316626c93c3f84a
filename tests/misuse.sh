#!/usr/bin/env bash
# Two uses of a segment's state that the compiler must refuse, each for its own reason: asking a Free record for its LSN, and
# deactivating one Active record twice. They are tried on copies of the state types, outside the repository. A third copy with the
# right use shows that it is the misuse that is refused.
set -euo pipefail
segment="$(cd "$(dirname "${BASH_SOURCE[0]}")/../crates/segment" && pwd)"
scratch="$(mktemp -d)"
trap 'rm -rf "$scratch"' EXIT

# A crate of the state types and their changes, with one function more.
copy_with() {
    local crate="$scratch/crates/$1"
    echo "$1:" >> "$scratch/crates.txt"
    mkdir -p "$crate/src" "$crate/specs"
    cp "$segment"/src/{types,state,changes}.rt "$crate/src/"
    cp "$segment/specs/Changes.antt" "$crate/specs/"
    sed -i "s/Rattle.segment.specs/Rattle.$1.specs/" "$crate/src/changes.rt" "$crate/specs/Changes.antt"
    echo 'pub mod Changes' > "$crate/specs/Lib.antt"
    printf '%s\n' '#![tactic(auto)]' 'mod changes;' 'mod state;' 'mod types;' 'pub mod uses;' > "$crate/src/lib.rt"
    printf '%s\n' 'use crate::state::Active;' 'use crate::state::Free;' 'use crate::state::Inactive;' "$2" > "$crate/src/uses.rt"
}

check() {
    (cd "$scratch/crates/$1" && rt check) > "$scratch/$1.out" 2>&1
}

refused() {
    local name="$1" reason="$2"
    if check "$name"; then
        echo "misuse: $name was accepted"
        exit 1
    fi
    if ! grep -q "$reason" "$scratch/$name.out"; then
        echo "misuse: $name was refused for another reason than $reason:"
        head -5 "$scratch/$name.out"
        exit 1
    fi
    echo "misuse: $name is refused: $(grep -o "error\[[a-z0-9-]*\]: [^:]*" "$scratch/$name.out" | head -1)"
}

copy_with lsn_of_free 'pub fn lsn(free: &Free) -> i64 { free.lsn }'
copy_with deactivated_twice 'pub fn twice(active: Active) -> (Inactive, Inactive) { (active.deactivate(1, 0), active.deactivate(1, 0)) }'
copy_with right_use 'pub fn former(free: &Free) -> Option<i64> { free.previous_lsn }'

refused lsn_of_free 'error\[unknown-field\]'
refused deactivated_twice 'error\[borrow-e0382\]'
check right_use || { echo "misuse: the right use was refused"; tail -5 "$scratch/right_use.out"; exit 1; }
echo "misuse: the right use is accepted"
