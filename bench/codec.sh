#!/usr/bin/env bash
# Instructions to read the JSON text of an item of 337 bytes, and to make of its JSON tree the item and JSON again; and the time to
# read a set of 100,000 texts in falling order. Not part of the gate.
set -eu
# shellcheck source=bench/rounds.sh
. "$(dirname "$0")/rounds.sh"
begin "${1:-HEAD}" "alt_codec alt_value serde_json" alt_base alt_decimal alt_fields alt_value alt_codec
cat >"$main" <<'RATTLE'
//! Reads the JSON text of an item, again and again: 100 times, with one word 10,100 times. With two words the item is made of
//! it and written 100 times, with three 10,100 times. With four a set of 100,000 texts is read.
#![tactic(auto)]

use serde_json::Value;
use std::alloc::Global;
use std::env;

const ITEM: &str = r#"{"pk":{"S":"customer#0000042"},"sk":{"S":"order#2026-11-27T03:26:31Z"},"total":{"N":"129.95"},"paid":{"BOOL":true},"note":{"S":"leave it at the door, and ring twice"},"tags":{"SS":["gift","priority"]},"lines":{"L":[{"M":{"sku":{"S":"A-1001"},"qty":{"N":"2"}}},{"M":{"sku":{"S":"B-2002"},"qty":{"N":"1"}}}]},"digest":{"B":"AAECAwQFBgc="}}"#;

fn members(v: &Value) -> usize {
    match v.as_object() {
        Some(members) => members.len(),
        None => 0,
    }
}

fn read(alloc: Global) -> usize {
    match Value::from_str(alloc, ITEM) {
        Ok(v) => members(&v),
        Err(_) => 0,
    }
}

fn both_ways(alloc: Global, v: &Value) -> usize {
    let Ok(item) = alt_codec::item_of_json(alloc, v) else {
        return 0;
    };
    match alt_codec::json_of_item(alloc, &item) {
        Ok(back) => members(&back),
        Err(_) => 0,
    }
}

fn read_both_ways(alloc: Global) -> usize {
    match Value::from_str(alloc, ITEM) {
        Ok(v) => both_ways(alloc, &v),
        Err(_) => 0,
    }
}

fn large_set(alloc: Global) -> Option<String> {
    let mut text = String::from_str(alloc, r#"{"SS":[""#).ok()?;
    for n in 0..100_000u32 {
        let member = format!(in alloc; "{}", 999_999 - n).ok()?;
        text.push_str(member.as_str()).ok()?;
        text.push_str(r#"",""#).ok()?;
    }
    text.push_str(r#"a"]}"#).ok()?;
    Some(text)
}

fn read_set(alloc: Global) -> usize {
    let Some(text) = large_set(alloc) else {
        return 0;
    };
    let Ok(v) = Value::from_str(alloc, text.as_str()) else {
        return 0;
    };
    let Ok(set) = alt_codec::attr_of_json(alloc, &v) else {
        return 1;
    };
    match alt_codec::json_of_attr(alloc, &set) {
        Ok(back) => members(&back),
        Err(_) => 0,
    }
}

fn main(rt: HostRuntime) {
    let words = match env::args(&rt) {
        Ok(args) => args.count(),
        Err(_) => 0,
    };
    let rounds: u32 = if words == 2 || words == 4 { 10_100 } else { 100 };
    let mut sum: usize = 0;
    if words == 5 {
        sum = read_set(rt.alloc());
    } else {
        for _ in 0..rounds {
            let found = if words >= 3 {
                read_both_ways(rt.alloc())
            } else {
                read(rt.alloc())
            };
            sum = sum.wrapping_add(found);
        }
    }
    let _ = println!(rt; "{sum}");
}
RATTLE
build
reading=$((($(instructions a) - $(instructions)) / 10000))
all=$((($(instructions a b c) - $(instructions a b)) / 10000))
echo "the text of an item of 337 bytes to a JSON tree: $reading instructions"
echo "the tree to an item and back: $((all - reading)) instructions"
start=$(date +%s%N)
"$program" a b c d >/dev/null
end=$(date +%s%N)
echo "a set of 100,000 texts from its text, and written: $(((end - start) / 1000000)) ms"
