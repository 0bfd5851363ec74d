#!/bin/sh
# Times what containers and texts cost, by a program in a scratch folder over the crate of values: building them, looking
# keys up, writing at elements with the weight asked for after each write, putting other values under keys, and
# appending to a text byte by byte. Each line has the number of operations, the seconds of all and the nanoseconds of
# one. The crate of values and the program are proved first, where they aren't.
set -e
top=$(CDPATH= cd -- "$(dirname -- "$0")/.." && pwd)
scratch=$(mktemp -d)
trap 'rm -rf "$scratch"' EXIT
trap 'exit 1' HUP INT TERM
mkdir -p "$scratch/crates/value_bench/src" "$scratch/crates/value_bench/specs"
cp -a "$top/crates/hack_values" "$scratch/crates/hack_values"
cp "$top/HANDLES" "$scratch/HANDLES"
grep '^hack_values:' "$top/crates.txt" > "$scratch/crates.txt"
echo 'value_bench: hack_values itoa' >> "$scratch/crates.txt"
: > "$scratch/crates/value_bench/specs/Lib.antt"
cat > "$scratch/crates/value_bench/src/main.rt" <<'PROGRAM'
//! Times operations on values.
#![tactic(auto)]

use hack_values::{Cell, DictVal, IntDigits, Key, KeysetVal, NoMemory, Text, ValueFault, VecVal};
use std::alloc::{AllocError, Global};
use std::io;
use std::time::Instant;

const LARGEST: u32 = 100_000;

/// Why the bench ended early.
#[derive(Debug, Drop)]
enum Fault {
    Output,
    Value,
}

impl From<io::Error> for Fault {
    fn from(_error: io::Error) -> Fault {
        Fault::Output
    }
}

impl From<AllocError> for Fault {
    fn from(_error: AllocError) -> Fault {
        Fault::Value
    }
}

impl From<NoMemory> for Fault {
    fn from(_error: NoMemory) -> Fault {
        Fault::Value
    }
}

impl From<ValueFault> for Fault {
    fn from(_error: ValueFault) -> Fault {
        Fault::Value
    }
}

/// Whether keys are ints or strings.
#[derive(Clone, Copy, Debug)]
enum Kind {
    Int,
    Str,
}

fn key(alloc: Global, kind: Kind, number: u32) -> Result<Key, NoMemory> {
    match kind {
        Kind::Int => Ok(Key::Int(number as i64)),
        Kind::Str => {
            let mut name = Text::from_bytes(alloc, b"key ")?;
            name.append(IntDigits::new().format(number).as_bytes())?;
            Ok(Key::Str(name))
        }
    }
}

fn vec_of(alloc: Global, count: u32) -> Result<VecVal, ValueFault> {
    let mut cells = VecVal::new(alloc);
    for number in 0..count {
        cells.append(Cell::Int(number as i64))?;
    }
    Ok(cells)
}

fn dict_of(alloc: Global, kind: Kind, count: u32) -> Result<DictVal, ValueFault> {
    let mut entries = DictVal::new(alloc);
    for number in 0..count {
        entries.add_elem(key(alloc, kind, number)?, Cell::Int(number as i64))?;
    }
    Ok(entries)
}

fn keyset_of(alloc: Global, kind: Kind, count: u32) -> Result<KeysetVal, ValueFault> {
    let mut keys = KeysetVal::new(alloc);
    for number in 0..count {
        keys.add(key(alloc, kind, number)?)?;
    }
    Ok(keys)
}

/// Whether all keys are there.
fn found_in(alloc: Global, entries: &DictVal, kind: Kind, count: u32) -> Result<bool, NoMemory> {
    for number in 0..count {
        if entries.find(&key(alloc, kind, number)?).is_none() {
            return Ok(false);
        }
    }
    Ok(true)
}

/// Writes at elements of a vec, each time with its weight asked for. The last weight.
fn written_vec(cells: &mut VecVal, count: u32) -> u32 {
    let mut weight = 0;
    for number in 0..count {
        if let Some(cell) = cells.get_mut(number as usize) {
            *cell = Cell::Bool(true);
        }
        weight = cells.weight();
    }
    weight
}

fn written_dict(entries: &mut DictVal, count: u32) -> u32 {
    let mut weight = 0;
    for number in 0..count {
        if let Some(cell) = entries.value_mut(number as usize) {
            *cell = Cell::Bool(true);
        }
        weight = entries.weight();
    }
    weight
}

/// Puts another value under keys that are there.
fn replaced(alloc: Global, entries: &mut DictVal, kind: Kind, count: u32) -> Result<(), ValueFault> {
    for number in 0..count {
        entries.add_elem(key(alloc, kind, number)?, Cell::Null)?;
    }
    Ok(())
}

fn appended(alloc: Global, count: u32) -> Result<Text, NoMemory> {
    let mut text = Text::from_bytes(alloc, b"")?;
    for _ in 0..count {
        text.append(b"x")?;
    }
    Ok(text)
}

fn tell(rt: &HostRuntime, what: &str, count: u32, began: Instant) -> Result<(), Fault> {
    let taken = began.elapsed(rt)?;
    let seconds = taken.as_secs();
    let rest = taken.subsec_nanos();
    let nanoseconds = seconds.saturating_mul(1_000_000_000).saturating_add(rest as u64);
    let each = nanoseconds / (count as u64).max(1);
    let milliseconds = rest / 1_000_000;
    println!(rt; "{what:<38}{count:>9}  {seconds:>3}.{milliseconds:03} s {each:>7} ns each")?;
    Ok(())
}

fn build(rt: &HostRuntime, count: u32) -> Result<(), Fault> {
    let alloc = rt.alloc();
    let began = Instant::now(rt)?;
    let _cells = vec_of(alloc, count)?;
    tell(rt, "vec built", count, began)?;
    for kind in [Kind::Int, Kind::Str] {
        let began = Instant::now(rt)?;
        let _entries = dict_of(alloc, kind, count)?;
        tell(rt, &format!(in alloc; "dict built, keys {kind:?}")?, count, began)?;
        let began = Instant::now(rt)?;
        let _keys = keyset_of(alloc, kind, count)?;
        tell(rt, &format!(in alloc; "keyset built, keys {kind:?}")?, count, began)?;
    }
    Ok(())
}

fn use_largest(rt: &HostRuntime, count: u32) -> Result<(), Fault> {
    let alloc = rt.alloc();
    let mut cells = vec_of(alloc, LARGEST)?;
    let began = Instant::now(rt)?;
    let _weight = written_vec(&mut cells, count);
    tell(rt, "vec of 100,000 written", count, began)?;
    for kind in [Kind::Int, Kind::Str] {
        let mut entries = dict_of(alloc, kind, LARGEST)?;
        let began = Instant::now(rt)?;
        let _found = found_in(alloc, &entries, kind, count)?;
        tell(rt, &format!(in alloc; "dict of 100,000 searched, keys {kind:?}")?, count, began)?;
        let began = Instant::now(rt)?;
        replaced(alloc, &mut entries, kind, count)?;
        tell(rt, &format!(in alloc; "dict of 100,000 replaced, keys {kind:?}")?, count, began)?;
        let began = Instant::now(rt)?;
        let _weight = written_dict(&mut entries, count);
        tell(rt, &format!(in alloc; "dict of 100,000 written, keys {kind:?}")?, count, began)?;
    }
    Ok(())
}

fn main(rt: HostRuntime) -> Result<(), Fault> {
    for count in [10_000u32, LARGEST, 1_000_000] {
        let began = Instant::now(&rt)?;
        let _text = appended(rt.alloc(), count)?;
        tell(&rt, "text appended to by one byte", count, began)?;
    }
    for count in [1_000u32, 10_000, LARGEST] {
        build(&rt, count)?;
    }
    for count in [1_000u32, 10_000, LARGEST] {
        use_largest(&rt, count)?;
    }
    Ok(())
}
PROGRAM
cd "$scratch/crates/value_bench"
rt run >"$scratch/out" 2>"$scratch/err" || true
grep ' ns each' "$scratch/out" || { cat "$scratch/out" "$scratch/err" >&2; exit 1; }
