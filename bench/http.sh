#!/usr/bin/env bash
# What serving costs, by bench/serve.sh over the built program; then, of alt_http by itself, the instructions to scan a head of 700 bytes, to
# write a reply, and to scan heads that come byte by byte. Not part of the gate. Usage: bench/http.sh [FOLDER], where stores are laid.
set -eu
"$(dirname "$0")/serve.sh" "$@"
# shellcheck source=bench/rounds.sh
. "$(dirname "$0")/rounds.sh"
begin HEAD alt_http alt_base alt_fields alt_http
cat >"$main" <<'RATTLE'
//! By the number of its words: scans of a head, replies, a head byte by byte, a head of many short lines byte by byte.
#![tactic(auto)]

use alt_http::{Scan, reply, scan, scan_more};
use std::alloc::Global;
use std::env;

static HEAD: &[u8] = b"POST / HTTP/1.1\r\nHost: 127.0.0.1:35623\r\nAccept-Encoding: identity\r\nX-Amz-Target: DynamoDB_20120810.ListTables\r\nContent-Type: application/x-amz-json-1.0\r\nUser-Agent: aws-cli/1.45.11 md/Botocore#1.43.11 ua/2.1 os/linux#6.18.44-fc-v857 md/arch#x86_64 lang/python#3.11.7 md/pyimpl#CPython m/D,C cfg/retry-mode#legacy botocore/1.43.11\r\nX-Amz-Date: 20261127T094008Z\r\nAuthorization: AWS4-HMAC-SHA256 Credential=x/20261127/us-east-1/dynamodb/aws4_request, SignedHeaders=content-type;host;x-amz-date;x-amz-target, Signature=578953d744d24ab874ba8c73c75a050452685e17665c41ccda6ab077b439faa2\r\namz-sdk-invocation-id: f3c0c27c-8727-437b-83a8-3e0c48ac7151\r\namz-sdk-request: attempt=1\r\nContent-Length: 2\r\n\r\n";

fn taken(found: &Scan) -> usize {
    match found {
        Scan::Head { taken, .. } => *taken,
        Scan::Refused(number) => *number as usize,
        Scan::More => 0,
    }
}

fn scans(alloc: Global, rounds: u32) -> usize {
    let mut sum: usize = 0;
    for _ in 0..rounds {
        if let Ok(found) = scan(alloc, HEAD) {
            sum = sum.wrapping_add(taken(&found));
        }
    }
    sum
}

fn replies(alloc: Global, rounds: u32) -> usize {
    let mut out = Vec::new(alloc);
    let mut sum: usize = 0;
    for round in 0..rounds {
        out.clear();
        if reply(200, 1_700_000_000 + round as u64, false, b"{\"TableNames\":[]}", &mut out).is_ok() {
            sum = sum.wrapping_add(out.len());
        }
    }
    sum
}

fn byte_by_byte(alloc: Global, head: &[u8]) -> usize {
    let mut seen = 0;
    for place in 0..head.len() {
        match scan_more(alloc, &head[..place + 1], seen) {
            Ok(Scan::More) => seen = place + 1,
            Ok(Scan::Refused(number)) => return number as usize,
            Ok(Scan::Head { taken, .. }) => return taken,
            Err(_) => return 0,
        }
    }
    seen
}

fn short_lines(alloc: Global) -> usize {
    let mut head = Vec::new(alloc);
    let mut whole = head.extend_from_slice(b"POST / HTTP/1.1\n").is_ok();
    for _ in 0..5455 {
        whole = whole & head.extend_from_slice(b"a:\n").is_ok();
    }
    if whole { byte_by_byte(alloc, &head) } else { 0 }
}

fn main(rt: HostRuntime) {
    let words = match env::args(&rt) {
        Ok(args) => args.count(),
        Err(_) => 0,
    };
    let mut sum: usize = 0;
    if words == 2 {
        sum = scans(rt.alloc(), 10_000);
    } else if words == 3 {
        sum = replies(rt.alloc(), 10_000);
    } else if words == 4 {
        for _ in 0..100 {
            sum = sum.wrapping_add(byte_by_byte(rt.alloc(), HEAD));
        }
    } else if words == 5 {
        sum = short_lines(rt.alloc());
    }
    let _ = println!(rt; "{sum}");
}
RATTLE
# What a caller keeps of scan_more: the bytes before were answered by More.
proofs=$copy/crates/rounds/proofs/byte_by_byte
mkdir -p "$proofs"
cat >"$proofs/Invariants.antt" <<'ANTT'
use Rattle.std.proofs.Common.{◌≡◌, ◌≤◌, take}
use Rattle.alt_http.specs.Reading.{scan_of}
use Rattle.alt_http.specs.declared.outcome.Scan.TheVariants.{More}
use Rattle.rounds.proofs.byte_by_byte.Given as goal

abbrev pub invariant-loop-place : goal.invariant-loop-place
invariant-loop-place l = record { behind : l.seen ≤ l.place; more : scan_of (take l.seen l.head) ≡ More }
ANTT
sed -e 's/tests_http.proofs.tests.pieces.answered_at/rounds.proofs.byte_by_byte/' -e 's/c.args.bytes.now/c.args.head.now/' \
  crates/tests_http/proofs/tests/pieces/answered_at/Answers.antt >"$proofs/Answers.antt"
build
none=$(instructions)
scan=$((($(instructions 1) - none) / 10000))
echo "a scan of a head of 700 bytes: $scan instructions"
echo "a reply with 17 bytes of body: $((($(instructions 1 2) - none) / 10000)) instructions"
bytes=$((($(instructions 1 2 3) - none) / 100))
echo "that head byte by byte: $bytes instructions, $((bytes / scan)) scans"
short=$(($(instructions 1 2 3 4) - none))
echo "a head of 16,381 bytes in lines of three, byte by byte: $short instructions"
