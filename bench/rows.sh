#!/usr/bin/env bash
# Row files on a real folder: writing 100,000 rows beside hashing and writing the same bytes, a row beside a read of 4 KB and the decoding of a
# block, walks of 100 rows and of two, and the merge of four files beside walking them one after another; and the same over LevelDB's table files, where
# its library is here. Times are of the processor, but for those of writing, which are given both ways. Not part of the gate.
# Usage: bench/rows.sh [FOLDER], where the files are laid; a folder of its own by default.
set -eu
# shellcheck source=bench/rounds.sh
. "$(dirname "$0")/rounds.sh"
begin HEAD "alt_cells alt_disk alt_fields alt_host alt_merge alt_rowfile" \
  alt_base alt_fields alt_disk alt_shell alt_host alt_cells alt_merge alt_filter alt_rowblocks alt_rowfile
git show HEAD:HANDLES >"$copy/HANDLES"
cat >"$main" <<'RATTLE'
//! By its first word: files of 100,000 rows of 200 bytes written in the folder `rows`, opened, read by key or by place, walked and merged.
#![tactic(auto)]

use alt_cells::{Cell, CellMap, RowCells, RowSource, RowWriter, row_of};
use alt_disk::Disk;
use alt_fields::{Bytes, take_bytes, take_u64};
use alt_host::HostShell;
use alt_merge::Merge;
use alt_rowfile::{RowFile, RowFileWriter};
use std::alloc::Global;
use std::env;
use std::fs::File;
use std::net::Net;
use std::rt::Runtime;

const ROWS: u32 = 100_000;

// A key that many others begin as, of the row of this number in the file of this one of four.
fn key_of(alloc: Global, f: u32, i: u32) -> Option<Vec<u8>> {
    let mut key = Vec::from_slice(alloc, b"customer#").ok()?;
    key.extend_from_slice(&(i.wrapping_mul(4).wrapping_add(f % 4)).to_be_bytes()).ok()?;
    Some(key)
}

// A row of 200 bytes: one column of 165.
fn row_given(alloc: Global, i: u32) -> Option<RowCells> {
    let mut value = Vec::new(alloc);
    value.resize(165, (i % 251) as u8).ok()?;
    let cell = Cell { at: i as u64, value: Some(Bytes::from_vec(value)) };
    let cells = CellMap::one(alloc, Bytes::new(alloc, b"c").ok()?, cell).ok()?;
    Some(RowCells { gone: None, cells })
}

fn write<R: Runtime<File = File> + Net>(
    alloc: Global,
    disk: &mut HostShell<R>,
    f: u32,
) -> Option<u64> {
    let mut writer = RowFileWriter::make(alloc, disk, f).ok()?;
    for i in 0..ROWS {
        let key = key_of(alloc, f, i)?;
        let row = row_given(alloc, i)?;
        writer.add(disk, &key, &row).ok()?;
    }
    match writer.finish(disk) {
        Ok(_) => disk.size(f).ok(),
        Err(_) => None,
    }
}

fn opened<D: Disk>(alloc: Global, disk: &mut D, f: u32) -> Option<RowFile> {
    match RowFile::recover(alloc, disk, f) {
        Ok(file) => Some(file),
        Err(_) => None,
    }
}

// A number that lies anywhere.
fn spread(i: u32) -> u32 {
    i.wrapping_mul(2_654_435_761) % ROWS
}

fn rows<D: Disk>(alloc: Global, disk: &mut D, file: &RowFile) -> Option<u64> {
    let mut sum: u64 = 0;
    for i in 0..ROWS {
        let key = key_of(alloc, 1, spread(i))?;
        if file.row(disk, &key).ok()?.is_some() {
            sum = sum.wrapping_add(1);
        }
    }
    Some(sum)
}

fn reads<D: Disk>(alloc: Global, disk: &mut D) -> Option<u64> {
    let size = disk.size(1).ok()?;
    let mut sum: u64 = 0;
    for i in 0..ROWS {
        let at = (spread(i) as u64).wrapping_mul(size.saturating_sub(4096) / ROWS as u64);
        let mut buf = Vec::new(alloc);
        buf.resize(4096, 0).ok()?;
        sum = sum.wrapping_add(disk.read(1, at, &mut buf).ok()? as u64);
    }
    Some(sum)
}

// The rows of a block, as they are decoded.
fn decoded(alloc: Global, block: &[u8]) -> Option<u64> {
    let mut rows: Vec<(Bytes, RowCells)> = Vec::new(alloc);
    let mut at = 0;
    for _ in 0..1000u32 {
        if at >= block.len() {
            return Some(rows.len() as u64);
        }
        let (key, next) = take_bytes(block, at).ok()?;
        let (row, next) = take_bytes(block, next).ok()?;
        rows.push((Bytes::new(alloc, key).ok()?, row_of(alloc, row).ok()?)).ok()?;
        at = next;
    }
    None
}

fn blocks<D: Disk>(alloc: Global, disk: &mut D) -> Option<u64> {
    let mut head = [0u8; 8];
    disk.read(1, 8, &mut head).ok()?;
    let mut block = Vec::new(alloc);
    block.resize(u64::from_be_bytes(head) as usize, 0).ok()?;
    disk.read(1, 16, &mut block).ok()?;
    let mut sum: u64 = 0;
    for _ in 0..ROWS {
        sum = sum.wrapping_add(decoded(alloc, &block)?);
    }
    Some(sum)
}

// So many rows at most of a walk from where it stands.
fn taken<D: Disk, S: RowSource<D>>(disk: &mut D, walk: &mut S, most: u32) -> Option<u64> {
    let mut sum: u64 = 0;
    for _ in 0..most {
        if walk.next(disk).ok()?.is_none() {
            return Some(sum);
        }
        sum = sum.wrapping_add(1);
    }
    Some(sum)
}

// Rows of a walk from a place that lies anywhere, so many of them.
fn few<D: Disk>(
    alloc: Global,
    disk: &mut D,
    file: &RowFile,
    forward: bool,
    most: u32,
) -> Option<u64> {
    let mut sum: u64 = 0;
    for i in 0..10_000 {
        let key = key_of(alloc, 1, spread(i) / 2)?;
        let mut walk = file.walk();
        walk.seek(disk, Some(&key), forward).ok()?;
        sum = sum.wrapping_add(taken(disk, &mut walk, most)?);
    }
    Some(sum)
}

fn four<D: Disk>(alloc: Global, disk: &mut D) -> Option<Vec<RowFile>> {
    let mut files = Vec::new(alloc);
    for f in 1..5 {
        files.push(opened(alloc, disk, f)?).ok()?;
    }
    Some(files)
}

fn each<D: Disk>(alloc: Global, disk: &mut D) -> Option<u64> {
    let files = four(alloc, disk)?;
    let mut sum: u64 = 0;
    for file in &files {
        let mut walk = file.walk();
        walk.seek(disk, None, true).ok()?;
        sum = sum.wrapping_add(taken(disk, &mut walk, u32::MAX)?);
    }
    Some(sum)
}

fn merged<D: Disk>(alloc: Global, disk: &mut D) -> Option<u64> {
    let files = four(alloc, disk)?;
    let mut sources = Vec::new(alloc);
    for file in &files {
        sources.push(file.walk()).ok()?;
    }
    let mut merge = Merge::new(alloc, sources);
    merge.seek(disk, None, true).ok()?;
    taken(disk, &mut merge, u32::MAX)
}

fn done<R: Runtime<File = File> + Net>(
    alloc: Global,
    disk: &mut HostShell<R>,
    task: &str,
) -> Option<u64> {
    match task {
        "write" => write(alloc, disk, 1),
        "others" => {
            write(alloc, disk, 2)?;
            write(alloc, disk, 3)?;
            write(alloc, disk, 4)
        }
        "open" => {
            opened(alloc, disk, 1)?;
            Some(0)
        }
        "rows" => {
            let file = opened(alloc, disk, 1)?;
            rows(alloc, disk, &file)
        }
        "reads" => {
            opened(alloc, disk, 1)?;
            reads(alloc, disk)
        }
        "blocks" => {
            opened(alloc, disk, 1)?;
            blocks(alloc, disk)
        }
        "walks" => {
            let file = opened(alloc, disk, 1)?;
            few(alloc, disk, &file, true, 100)
        }
        "ups" => {
            let file = opened(alloc, disk, 1)?;
            few(alloc, disk, &file, true, 2)
        }
        "downs" => {
            let file = opened(alloc, disk, 1)?;
            few(alloc, disk, &file, false, 2)
        }
        "four" => Some(four(alloc, disk)?.len() as u64),
        "each" => each(alloc, disk),
        "merged" => merged(alloc, disk),
        _ => Some(0),
    }
}

fn main(rt: HostRuntime) {
    let alloc = rt.alloc();
    let own: Result<_, _> = rt.clone();
    let (Ok(args), Ok(own)) = (env::args(&rt), own) else {
        return;
    };
    let Ok(mut shell) = HostShell::new(own, alloc, "rows", 0) else {
        return;
    };
    for task in args.skip(1) {
        let sum = done(alloc, &mut shell, task.as_str());
        let _ = println!(rt; "{sum:?}");
    }
}
RATTLE
build
work=$(mktemp -d "${1:-/tmp}/rows.XXXXXX")
trap 'rm -rf "$copy" "$work"' EXIT
bench=$PWD/bench
cd "$work"

# What a command takes: seconds of the processor, and seconds.
cost() {
  local TIMEFORMAT='%U %S %R'
  { time "$@" >"$work/said"; } 2>&1 | awk '{ print $1 + $2, $3 }'
}
task() { # TASK: the processor's seconds
  local spent
  spent=$(cost "$program" "$1")
  if grep -q None "$work/said"; then echo "bench/rows.sh: $1 failed" >&2; exit 1; fi
  echo "${spent% *}"
}
plain() { sha256sum rows/00000001.alt >sum; dd if=rows/00000001.alt of=copy bs=64K conv=fsync status=none; }

ours=$(cost "$program" write)
beside=$(cost plain)
echo "$ours $beside" | awk -v n="$(stat -c %s rows/00000001.alt)" '{
  printf "100,000 rows written, a file of %d bytes: %.2f s of the processor, %.2f s; sha256sum and dd of it: %.2f s, %.2f s; %.2f of their speed, %.2f\n", n, $1, $2, $3, $4, $3 / $1, $4 / $2 }'
task others >others
open=$(task open)
awk -v o="$open" -v r="$(task rows)" -v p="$(task reads)" -v b="$(task blocks)" 'BEGIN {
  r = (r - o) * 10; p = (p - o) * 10; b = (b - o) * 10
  printf "opening it: %.2f s; a row by its key: %.1f microseconds; a read of 4 KB: %.1f; a block decoded: %.1f; %.2f times both\n", o, r, p, b, r / (p + b) }'
awk -v o="$open" -v w="$(task walks)" 'BEGIN { printf "a walk of 100 rows: %.1f microseconds\n", (w - o) * 100 }'
awk -v o="$open" -v u="$(task ups)" -v d="$(task downs)" 'BEGIN {
  printf "a walk of two rows: %.1f microseconds; downwards: %.1f\n", (u - o) * 100, (d - o) * 100 }'
awk -v f="$(task four)" -v e="$(task each)" -v m="$(task merged)" 'BEGIN {
  printf "four files walked one after another: %.2f s; merged: %.2f s; %.2f times\n", e - f, m - f, (m - f) / (e - f) }'
if [ -e /usr/include/leveldb/table.h ]; then
  g++ -O2 -o leveldb "$bench/rows-leveldb.cc" -lleveldb
  ./leveldb table
else
  echo "LevelDB isn't here (Debian's libleveldb-dev)"
fi
