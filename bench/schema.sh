#!/usr/bin/env bash
# Instructions to read the JSON of two hostile bodies of CreateTable, and to test what they state: 80,000 definitions that no key
# uses, and 40,000 definitions of which each is the key of a global index. Not part of the gate.
set -eu
# shellcheck source=bench/rounds.sh
. "$(dirname "$0")/rounds.sh"
begin "${1:-HEAD}" "alt_schema serde_json" alt_base alt_decimal alt_fields alt_value alt_codec alt_shape alt_description alt_schema
cat >"$main" <<'RATTLE'
//! Makes a hostile body of CreateTable, with `indexes` as the first word one of many indexes. With two words its JSON is read, and
//! with three it is tested too.
#![tactic(auto)]

use serde_json::Value;
use std::alloc::{AllocError, Global};
use std::env;

fn push_definition(alloc: Global, body: &mut String, n: u32) -> Result<(), AllocError> {
    let before = if n == 0 { "" } else { "," };
    let text = format!(in alloc;
        "{before}{{\"AttributeName\":\"a{n}\",\"AttributeType\":\"S\"}}")?;
    body.push_str(text.as_str())
}

fn push_index(alloc: Global, body: &mut String, n: u32) -> Result<(), AllocError> {
    let before = if n == 0 { "" } else { "," };
    let text = format!(in alloc;
        "{before}{{\"IndexName\":\"Ind{n}\",\"KeySchema\":[{{\"AttributeName\":\"a{n}\",\"KeyType\":\"HASH\"}}],\"Projection\":{{\"ProjectionType\":\"ALL\"}}}}")?;
    body.push_str(text.as_str())
}

fn hostile(alloc: Global, definitions: u32, indexes: u32) -> Result<String, AllocError> {
    let mut body = String::from_str(
        alloc,
        r#"{"TableName":"Tab","KeySchema":[{"AttributeName":"a0","KeyType":"HASH"}],"AttributeDefinitions":["#,
    )?;
    for n in 0..definitions {
        push_definition(alloc, &mut body, n)?;
    }
    body.push_str(r#"],"GlobalSecondaryIndexes":["#)?;
    for n in 0..indexes {
        push_index(alloc, &mut body, n)?;
    }
    body.push_str("]}")?;
    Ok(body)
}

fn read(alloc: Global, body: &str, test: bool) -> u8 {
    let Ok(value) = Value::from_str(alloc, body) else {
        return 1;
    };
    let Some(members) = value.as_object() else {
        return 2;
    };
    if !test {
        return 3;
    }
    match alt_schema::schema_of_json(alloc, members, 5, 6, 7) {
        Ok(_) => 4,
        Err(_) => 5,
    }
}

fn main(rt: HostRuntime) {
    let mut words: usize = 0;
    let mut indexes = false;
    if let Ok(args) = env::args(&rt) {
        for (place, arg) in args.enumerate() {
            indexes = indexes || (place == 1 && arg.as_str() == "indexes");
            words = place;
        }
    }
    let (definitions, count) = if indexes { (40_000, 40_000) } else { (80_000, 0) };
    let mut told = 0;
    if let Ok(body) = hostile(rt.alloc(), definitions, count) {
        told = if words >= 2 { read(rt.alloc(), body.as_str(), words >= 3) } else { 0 };
    }
    let _ = println!(rt; "{told}");
}
RATTLE
build
for body in definitions indexes; do
  made=$(instructions "$body")
  read=$(instructions "$body" a)
  tested=$(instructions "$body" a b)
  echo "many $body: $(((read - made) / 1000)) thousand instructions to read the JSON, $(((tested - read) / 1000)) thousand to test it"
done
