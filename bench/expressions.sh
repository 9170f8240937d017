#!/usr/bin/env bash
# Instructions to read the JSON text of a condition of five operators with its values, to make the values of its JSON tree, to parse the
# condition, and to say whether it holds of an item of 337 bytes; and to parse a projection of 801 paths. By a small program that is
# made in a copy of the repository, since a source file stands only in a crate. Not part of the gate.
# Usage: bench/expressions.sh [COMMIT]
set -eu
cd "$(dirname "$0")/.."
copy=$(mktemp -d)
trap 'rm -rf "$copy"' EXIT
crates="alt_base alt_decimal alt_fields alt_value alt_codec alt_expr alt_condparse alt_condeval alt_projection"
git archive "${1:-HEAD}" $(printf 'crates/%s ' $crates) crates.txt | tar -x -C "$copy"
# Libraries that are built here are taken where they were made from the same sources.
for name in $crates; do
  [ -d "crates/$name/out/rlib" ] || continue
  mkdir -p "$copy/crates/$name/out"
  cp -al "crates/$name/out/rlib" "$copy/crates/$name/out/" 2>/dev/null || cp -a "crates/$name/out/rlib" "$copy/crates/$name/out/"
done
grep -E "^($(echo "$crates" | tr ' ' '|')):" "$copy/crates.txt" >"$copy/listed"
mv "$copy/listed" "$copy/crates.txt"
(cd "$copy" && rt new crates/expression_rounds start_io >/dev/null)
rm -rf "$copy"/crates/expression_rounds/{src,stdin,stdout,BUILD.bazel} "$copy"/{BUILD,MODULE}.bazel
mkdir "$copy/crates/expression_rounds/src"
echo 'expression_rounds: alt_codec alt_condeval alt_condparse alt_expr alt_projection alt_value serde_json' >>"$copy/crates.txt"
cat >"$copy/crates/expression_rounds/src/main.rt" <<'RATTLE'
//! Takes so many steps of a condition, again and again: 100 times, with an odd number of words 10,100 times. With fewer than two words
//! its JSON is read; with fewer than four its values are made too; with fewer than six it is parsed as well; with more it is evaluated.
//! With eight words and more a long projection is parsed instead, a hundredth as often.
#![tactic(auto)]

use alt_expr::{Boxed, Cond, Names, Values};
use alt_value::Item;
use serde_json::Value;
use std::alloc::Global;
use std::env;

const ITEM: &str = r#"{"pk":{"S":"customer#0000042"},"sk":{"S":"order#2026-11-27T03:26:31Z"},"total":{"N":"129.95"},"paid":{"BOOL":true},"note":{"S":"leave it at the door, and ring twice"},"tags":{"SS":["gift","priority"]},"lines":{"L":[{"M":{"sku":{"S":"A-1001"},"qty":{"N":"2"}}},{"M":{"sku":{"S":"B-2002"},"qty":{"N":"1"}}}]},"digest":{"B":"AAECAwQFBgc="}}"#;

const TEXT: &str = "attribute_exists(pk) AND total >= :least AND begins_with(sk, :front) AND size(lines) < :most AND (paid = :paid)";

const BODY: &str = r#"{"ConditionExpression":"attribute_exists(pk) AND total >= :least AND begins_with(sk, :front) AND size(lines) < :most AND (paid = :paid)","ExpressionAttributeValues":{":least":{"N":"100"},":front":{"S":"order#2026-11-"},":most":{"N":"25"},":paid":{"BOOL":true}}}"#;

fn item(alloc: Global, json: &Value) -> Option<Item> {
    alt_codec::item_of_json(alloc, json).ok()
}

fn worked(alloc: Global) -> Option<Item> {
    let json = Value::from_str(alloc, ITEM).ok()?;
    item(alloc, &json)
}

fn tree(alloc: Global, values: &mut Values) -> Option<Boxed<Cond>> {
    let Ok(mut names) = Names::of_json(alloc, None) else {
        return None;
    };
    match alt_condparse::parse(alloc, TEXT, &mut names, values) {
        Ok(condition) => Boxed::new(alloc, condition).ok(),
        Err(_) => None,
    }
}

fn held(condition: &Cond, whole: Option<&Item>) -> usize {
    match whole {
        Some(item) => {
            if alt_condeval::holds(condition, item) {
                3
            } else {
                0
            }
        }
        None => 2,
    }
}

fn parsed(alloc: Global, values: &mut Values, whole: Option<&Item>) -> usize {
    match tree(alloc, values) {
        Some(condition) => held(condition.get(), whole),
        None => 0,
    }
}

fn given(alloc: Global, json: &Value, steps: usize, whole: &Item) -> usize {
    let Some(found) = json.get("ExpressionAttributeValues") else {
        return 0;
    };
    let Some(given) = item(alloc, found) else {
        return 0;
    };
    let Ok(mut values) = Values::of_item(alloc, given) else {
        return 0;
    };
    if steps == 1 {
        1
    } else if steps == 2 {
        parsed(alloc, &mut values, None)
    } else {
        parsed(alloc, &mut values, Some(whole))
    }
}

fn round(alloc: Global, steps: usize, whole: &Item) -> usize {
    let Ok(json) = Value::from_str(alloc, BODY) else {
        return 0;
    };
    if steps == 0 {
        return 7;
    }
    given(alloc, &json, steps, whole)
}

fn long_projection(alloc: Global) -> Option<String> {
    let mut text = String::from_str(alloc, "a").ok()?;
    for n in 0..800u32 {
        let name = format!(in alloc; ",b{}", n).ok()?;
        text.push_str(name.as_str()).ok()?;
    }
    Some(text)
}

fn paths(alloc: Global, text: &str) -> usize {
    let Ok(mut names) = Names::of_json(alloc, None) else {
        return 0;
    };
    match alt_projection::parse(alloc, text, &mut names) {
        Ok(paths) => paths.len(),
        Err(_) => 0,
    }
}

fn rounds_of(alloc: Global, steps: usize, rounds: u32, whole: &Item, long: &str) -> usize {
    let mut sum: usize = 0;
    for _ in 0..rounds {
        let found = if steps >= 4 {
            paths(alloc, long)
        } else {
            round(alloc, steps, whole)
        };
        sum = sum.wrapping_add(found);
    }
    sum
}

fn main(rt: HostRuntime) {
    let words = match env::args(&rt) {
        Ok(args) => args.count(),
        Err(_) => 1,
    };
    let words = words.saturating_sub(1);
    let rounds: u32 = if words % 2 == 1 { 10_100 } else { 100 };
    let (Some(whole), Some(long)) = (worked(rt.alloc()), long_projection(rt.alloc())) else {
        return;
    };
    let rounds = if words >= 8 { rounds / 100 } else { rounds };
    let sum = rounds_of(rt.alloc(), words / 2, rounds, &whole, long.as_str());
    let _ = println!(rt; "{sum}");
}
RATTLE
(cd "$copy/crates/expression_rounds" && rt run >"$copy/log" 2>&1) || { cat "$copy/log" >&2; exit 1; }
program=$copy/crates/expression_rounds/out/expression_rounds
instructions() { # WORDS..
  valgrind --tool=callgrind --callgrind-out-file=/dev/null "$program" "$@" 2>"$copy/err" >"$copy/sum"
  awk '/Collected/ { print $4 }' "$copy/err"
}
a_round() { # MANY FEW, each as words
  echo $((($(instructions $1) - $(instructions $2)) / 10000))
}
reading=$(a_round "a" "")
values=$(a_round "a b c" "a b")
parsing=$(a_round "a b c d e" "a b c d")
holding=$(a_round "a b c d e f g" "a b c d e f")
echo "the JSON text of a condition of five operators and its four values: $reading instructions"
echo "its values from that JSON: $((values - reading))"
echo "its tree from its text: $((parsing - values))"
echo "whether it holds: $((holding - parsing))"
echo "a projection of 801 paths: $((100 * $(a_round "a b c d e f g h i" "a b c d e f g h")))"
