#!/usr/bin/env bash
# What a cache of 256 reads before a real folder costs and saves: rows of a file by their keys, anywhere among 100,000 and among 1,000 of them that lie
# together; an opening of the file; and short reads one behind another, as those of a log. Each with the cache and without: seconds of the
# processor, the system's included, and instructions outside of it. Not part of the gate.
# Usage: bench/blocks.sh [FOLDER], where the file is laid; a folder of its own by default.
set -eu
# shellcheck source=bench/rounds.sh
. "$(dirname "$0")/rounds.sh"
begin HEAD "alt_blocks alt_cells alt_disk alt_fields alt_host alt_rowfile" \
  alt_base alt_fields alt_disk alt_shell alt_host alt_blocks alt_cells alt_filter alt_rowblocks alt_rowfile
git show HEAD:HANDLES >"$copy/HANDLES"
cat >"$main" <<'RATTLE'
//! By its words: a file of 100,000 rows of 200 bytes written in the folder `rows`, opened, and read, with a cache before the folder or without.
#![tactic(auto)]

use alt_blocks::{BlockCache, Cached};
use alt_cells::{Cell, CellMap, RowCells, RowWriter};
use alt_disk::Disk;
use alt_fields::Bytes;
use alt_host::HostShell;
use alt_rowfile::{RowFile, RowFileWriter};
use std::alloc::Global;
use std::env;
use std::fs::File;
use std::net::Net;
use std::rt::Runtime;

const ROWS: u32 = 100_000;

fn key_of(alloc: Global, i: u32) -> Option<Vec<u8>> {
    let mut key = Vec::from_slice(alloc, b"customer#").ok()?;
    key.extend_from_slice(&i.to_be_bytes()).ok()?;
    Some(key)
}

// A row of 200 bytes: one column of 165.
fn row_given(alloc: Global, i: u32) -> Option<RowCells> {
    let mut value = Vec::new(alloc);
    value.resize(165, (i % 251) as u8).ok()?;
    let cell = Cell { at: i as u64, value: Some(Bytes::from_vec(value)) };
    let cells = CellMap::one(alloc, Bytes::new(alloc, b"c").ok()?, cell).ok()?;
    Some(RowCells { gone: None, cells })
}

fn write<R: Runtime<File = File> + Net>(alloc: Global, disk: &mut HostShell<R>) -> Option<u64> {
    let mut writer = RowFileWriter::make(alloc, disk, 1).ok()?;
    for i in 0..ROWS {
        let key = key_of(alloc, i)?;
        let row = row_given(alloc, i)?;
        writer.add(disk, &key, &row).ok()?;
    }
    match writer.finish(disk) {
        Ok(_) => disk.size(1).ok(),
        Err(_) => None,
    }
}

fn opened<D: Disk>(alloc: Global, disk: &mut D) -> Option<RowFile> {
    match RowFile::recover(alloc, disk, 1) {
        Ok(file) => Some(file),
        Err(_) => None,
    }
}

// As many rows as there are, of the first so many.
fn rows<D: Disk>(alloc: Global, disk: &mut D, of: u32) -> Option<u64> {
    let file = opened(alloc, disk)?;
    let mut sum: u64 = 0;
    for i in 0..ROWS {
        let key = key_of(alloc, i.wrapping_mul(2_654_435_761).checked_rem(of)?)?;
        if file.row(disk, &key).ok()?.is_some() {
            sum = sum.wrapping_add(1);
        }
    }
    Some(sum)
}

// Short reads one behind another.
fn short<D: Disk>(disk: &mut D) -> Option<u64> {
    let mut buf = [0u8; 9];
    let mut sum: u64 = 0;
    for i in 0..ROWS {
        sum = sum.wrapping_add(disk.read(1, i as u64 * 200, &mut buf).ok()? as u64);
    }
    Some(sum)
}

fn done<D: Disk>(alloc: Global, disk: &mut D, task: &str) -> Option<u64> {
    match task {
        "open" => {
            opened(alloc, disk)?;
            Some(1)
        }
        "far" => rows(alloc, disk, ROWS),
        "near" => rows(alloc, disk, 1000),
        "short" => short(disk),
        _ => Some(0),
    }
}

fn main(rt: HostRuntime) {
    let alloc = rt.alloc();
    let own: Result<_, _> = rt.clone();
    let (Ok(args), Ok(own)) = (env::args(&rt), own) else {
        return;
    };
    let (Ok(mut shell), Ok(mut cache)) = (HostShell::new(own, alloc, "rows", 0), BlockCache::new(alloc, 256)) else {
        return;
    };
    let mut with = false;
    for task in args.skip(1) {
        let sum = match task.as_str() {
            "write" => write(alloc, &mut shell),
            "cached" => {
                with = true;
                Some(0)
            }
            task => {
                if with {
                    done(alloc, &mut Cached::new(&mut shell, &mut cache), task)
                } else {
                    done(alloc, &mut shell, task)
                }
            }
        };
        let _ = println!(rt; "{sum:?}");
    }
}
RATTLE
build
work=$(mktemp -d "${1:-/tmp}/blocks.XXXXXX")
trap 'rm -rf "$copy" "$work"' EXIT
cd "$work"
# The processor's seconds of a command.
cost() {
  local TIMEFORMAT='%U %S'
  { time "$program" "$@" >"$work/said"; } 2>&1 | awk '{ print $1 + $2 }'
  if grep -q None "$work/said"; then echo "bench/blocks.sh: $* failed" >&2; exit 1; fi
}
"$program" write >said
for task in far near short open; do
  without=$(cost $task) with=$(cost cached $task)
  fewer=$(instructions $task) more=$(instructions cached $task)
  if [ $task = open ]; then
    echo "opening the file: $without s without the cache, $with s with it; $fewer and $more instructions"
    continue
  fi
  base=0 base_cached=0 steps=0 steps_cached=0
  if [ $task != short ]; then
    base=$(cost open) base_cached=$(cost cached open) steps=$(instructions open) steps_cached=$(instructions cached open)
  fi
  awk -v k=$task -v a="$without" -v b="$with" -v c="$base" -v d="$base_cached" -v e="$fewer" -v f="$more" -v g="$steps" -v h="$steps_cached" 'BEGIN {
    printf "%s: %.2f microseconds without the cache, %.2f with it; %d and %d instructions\n", k, (a - c) * 10, (b - d) * 10, (e - g) / 100000, (f - h) / 100000 }'
done
