#!/usr/bin/env bash
# While a scan lives, its engine can't be called: of two functions the compiler refuses the one that does, for that alone, and takes the
# one that drops the scan before. Nothing is proved here. scan_borrows.sh
set -eu
top=$(cd "$(dirname "$0")/.." && pwd)
work=$(mktemp -d)
trap 'rm -rf "$work"' EXIT
tar --exclude=out -C "$top" -cf - HANDLES crates.txt crates | tar -C "$work" -xf -
mkdir -p "$work/crates/lent/src"
echo 'lent: wh_engine wh_store wh_rows sqlite' >> "$work/crates.txt"
cat > "$work/crates/lent/src/main.rt" <<'END'
//! Calls of an engine beside a scan, and behind one.
#![tactic(auto)]

use sqlite::Alter;
use std::alloc::Global;
use wh_engine::{Engine, Fault};
use wh_rows::tables::Fact;

pub fn behind<S: Alter>(engine: &mut Engine<S>, alloc: Global) -> Result<(), Fault> {
    let mut scan = engine.scan::<Fact>(alloc)?;
    scan.next_row(alloc)?;
    drop(scan);
    engine.counts(alloc)?;
    Ok(())
}

pub fn beside<S: Alter>(engine: &mut Engine<S>, alloc: Global) -> Result<(), Fault> {
    let mut scan = engine.scan::<Fact>(alloc)?;
    scan.next_row(alloc)?;
    engine.counts(alloc)?; // refused
    scan.next_row(alloc)?;
    Ok(())
}

fn main() {}
END
line=$(grep -n '// refused' "$work/crates/lent/src/main.rt" | cut -d: -f1)
(cd "$work/crates/lent" && rt try > "$work/answer" 2>&1) || true
if [ "$(grep -c 'error' "$work/answer")" = 1 ] && grep -q "main.rt:$line:.*borrow-e0499" "$work/answer"; then
    echo "1 passed, 0 failed"
else
    cat "$work/answer"
    echo "0 passed, 1 failed"
    exit 1
fi
