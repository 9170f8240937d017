#!/usr/bin/env bash
# What the parts of a GetItem of an item of 200 bytes cost, each alone, in instructions: its body to members, its key, the key's place, the row copied out of
# memory, what it shows copied from that, the item of it, the item's text, the scan of a head of 700 bytes and a reply. Not part of the gate. Usage: bench/get.sh
set -eu
# shellcheck source=bench/rounds.sh
. "$(dirname "$0")/rounds.sh"
crates='alt_base alt_fields alt_decimal alt_value alt_codec alt_shape alt_description alt_schema alt_expr alt_keyorder alt_legacy alt_machine alt_named alt_members alt_disk alt_cells alt_cellbytes alt_views alt_http'
# shellcheck disable=SC2086
begin HEAD "$crates json serde_json" $crates
cat >"$main" <<'RATTLE'
//! The parts of a GetItem, by the number of words.
#![tactic(auto)]

use alt_cells::{RowCells, RowChange};
use alt_codec::item_of_json;
use alt_fields::Bytes;
use alt_http::{Scan, reply, scan};
use alt_machine::Operation;
use alt_members::read_heeded;
use alt_schema::{TableSchema, schema_of_json};
use alt_shape::{Body, Member, Part, given};
use alt_value::Item;
use alt_views::{item_of_row, place_of, row_of_item};
use json::Scratch;
use serde_json::{Map, Value};
use std::alloc::Global;
use std::env;

static GET: &[u8] = b"{\"TableName\":\"Tab\",\"Key\":{\"pk\":{\"S\":\"customer#7654321\"}}}";
static PUT: &[u8] = b"{\"TableName\":\"Tab\",\"Item\":{\"pk\":{\"S\":\"customer#7654321\"},\"total\":{\"N\":\"129.95\"},\"paid\":{\"BOOL\":true},\"note\":{\"S\":\"leave it at the door, and ring twice\"},\"sku\":{\"S\":\"A-1001\"},\"digest\":{\"B\":\"AAECAwQFBgc=\"}}}";
static CREATE: &[u8] = b"{\"TableName\":\"Tab\",\"KeySchema\":[{\"AttributeName\":\"pk\",\"KeyType\":\"HASH\"}],\"AttributeDefinitions\":[{\"AttributeName\":\"pk\",\"AttributeType\":\"S\"}]}";
static HEAD: &[u8] = b"POST / HTTP/1.1\r\nHost: 127.0.0.1:35623\r\nAccept-Encoding: identity\r\nX-Amz-Target: DynamoDB_20120810.ListTables\r\nContent-Type: application/x-amz-json-1.0\r\nUser-Agent: aws-cli/1.45.11 md/Botocore#1.43.11 ua/2.1 os/linux#6.18.44-fc-v857 md/arch#x86_64 lang/python#3.11.7 md/pyimpl#CPython m/D,C cfg/retry-mode#legacy botocore/1.43.11\r\nX-Amz-Date: 20261127T094008Z\r\nAuthorization: AWS4-HMAC-SHA256 Credential=x/20261127/us-east-1/dynamodb/aws4_request, SignedHeaders=content-type;host;x-amz-date;x-amz-target, Signature=578953d744d24ab874ba8c73c75a050452685e17665c41ccda6ab077b439faa2\r\namz-sdk-invocation-id: f3c0c27c-8727-437b-83a8-3e0c48ac7151\r\namz-sdk-request: attempt=1\r\nContent-Length: 2\r\n\r\n";

const ROUNDS: u32 = 1_000;

fn read(alloc: Global, operation: Operation, body: &[u8]) -> Option<Map<String, Value>> {
    let mut scratch = Scratch::new(alloc);
    read_with(alloc, &mut scratch, operation, body)
}

fn read_with(
    alloc: Global,
    scratch: &mut Scratch<Global>,
    operation: Operation,
    body: &[u8],
) -> Option<Map<String, Value>> {
    match read_heeded(alloc, scratch, operation, body) {
        Ok(found) => found,
        Err(_) => None,
    }
}

fn item_at(alloc: Global, body: &Map<String, Value>, name: &str) -> Option<Item> {
    let value = given(body, name)?;
    match item_of_json(alloc, value) {
        Ok(item) => Some(item),
        Err(_) => None,
    }
}

fn table(alloc: Global) -> Option<TableSchema> {
    let body = read(alloc, Operation::CreateTable, CREATE)?;
    match schema_of_json(alloc, &body, 1, 1, 2) {
        Ok(schema) => Some(schema),
        Err(_) => None,
    }
}

fn row_at(alloc: Global) -> Option<RowCells> {
    let body = read(alloc, Operation::PutItem, PUT)?;
    let item = item_at(alloc, &body, "Item")?;
    let Ok(row) = row_of_item(alloc, &item) else {
        return None;
    };
    let Ok(key) = Bytes::new(alloc, b"key") else {
        return None;
    };
    let Ok(change) = RowChange::made(alloc, 2, key, row) else {
        return None;
    };
    match RowCells::of_change(alloc, 7, &change) {
        Ok(cells) => Some(cells),
        Err(_) => None,
    }
}

fn bodies(alloc: Global) -> usize {
    let mut sum: usize = 0;
    let mut scratch = Scratch::new(alloc);
    for _ in 0..ROUNDS {
        if let Some(body) = read_with(alloc, &mut scratch, Operation::GetItem, GET) {
            sum = sum.wrapping_add(body.len());
        }
    }
    sum
}

fn keys(alloc: Global) -> usize {
    let mut sum: usize = 0;
    let Some(body) = read(alloc, Operation::GetItem, GET) else {
        return sum;
    };
    for _ in 0..ROUNDS {
        if let Some(item) = item_at(alloc, &body, "Key") {
            sum = sum.wrapping_add(item.len());
        }
    }
    sum
}

fn places(alloc: Global) -> usize {
    let mut sum: usize = 0;
    let Some(body) = read(alloc, Operation::GetItem, GET) else {
        return sum;
    };
    let (Some(item), Some(schema)) = (item_at(alloc, &body, "Key"), table(alloc)) else {
        return sum;
    };
    for _ in 0..ROUNDS {
        if let Ok(Some(place)) = place_of(alloc, &schema, &item) {
            sum = sum.wrapping_add(place.len());
        }
    }
    sum
}

fn copies(alloc: Global) -> usize {
    let mut sum: usize = 0;
    let Some(row) = row_at(alloc) else {
        return sum;
    };
    for _ in 0..ROUNDS {
        if let Ok(copy) = row.copy() {
            sum = sum.wrapping_add(copy.cells.as_slice().len());
        }
    }
    sum
}

fn shows(alloc: Global) -> usize {
    let mut sum: usize = 0;
    let Some(row) = row_at(alloc) else {
        return sum;
    };
    for _ in 0..ROUNDS {
        if let Ok(Some(shown)) = row.shown() {
            sum = sum.wrapping_add(shown.as_slice().len());
        }
    }
    sum
}

fn items(alloc: Global) -> usize {
    let mut sum: usize = 0;
    let Some(row) = row_at(alloc) else {
        return sum;
    };
    let Ok(Some(shown)) = row.shown() else {
        return sum;
    };
    for _ in 0..ROUNDS {
        if let Ok(item) = item_of_row(alloc, &shown) {
            sum = sum.wrapping_add(item.len());
        }
    }
    sum
}

fn member(alloc: Global) -> Option<Body> {
    let body = read(alloc, Operation::PutItem, PUT)?;
    let item = item_at(alloc, &body, "Item")?;
    let mut members = Vec::new(alloc);
    if members.push(Member { name: "Item", value: Part::Item(item) }).is_err() {
        return None;
    }
    Some(Body::Members(members))
}

fn texts(alloc: Global) -> usize {
    let mut sum: usize = 0;
    let Some(body) = member(alloc) else {
        return sum;
    };
    for _ in 0..ROUNDS {
        if let Ok(text) = body.to_string(alloc) {
            sum = sum.wrapping_add(text.len());
        }
    }
    sum
}

fn heads(alloc: Global) -> usize {
    let mut sum: usize = 0;
    for _ in 0..ROUNDS {
        if let Ok(Scan::Head { taken, .. }) = scan(alloc, HEAD) {
            sum = sum.wrapping_add(taken);
        }
    }
    sum
}

fn replies(alloc: Global) -> usize {
    let mut sum: usize = 0;
    for round in 0..ROUNDS {
        let mut out = Vec::new(alloc);
        if reply(200, 1_700_000_000 + round as u64, false, PUT, &mut out).is_ok() {
            sum = sum.wrapping_add(out.len());
        }
    }
    sum
}

fn main(rt: HostRuntime) {
    let words = match env::args(&rt) {
        Ok(args) => args.count(),
        Err(_) => 0,
    };
    let alloc = rt.alloc();
    let sum = match words {
        2 => bodies(alloc),
        3 => keys(alloc),
        4 => places(alloc),
        5 => copies(alloc),
        6 => shows(alloc),
        7 => items(alloc),
        8 => texts(alloc),
        9 => heads(alloc),
        10 => replies(alloc),
        _ => 0,
    };
    let _ = println!(rt; "{sum}");
}
RATTLE
build
none=$(instructions)
words=()
for part in 'the body to members' 'the key of them' "the key's place" 'a copy of the row' 'a copy of what it shows' 'the item of that' "the item's text" 'the scan of a head' 'a reply'; do
  words+=(x)
  echo "$part: $((($(instructions "${words[@]}") - none) / 1000)) instructions"
done
