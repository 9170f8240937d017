#!/usr/bin/env bash
# Instructions and time to parse and to print a number of 38 digits. Not part of the gate.
set -eu
# shellcheck source=bench/rounds.sh
. "$(dirname "$0")/rounds.sh"
begin HEAD alt_decimal alt_base alt_decimal
cat >"$main" <<'RATTLE'
//! Parses and prints a number of 38 digits, again and again: 1,000 times, or 101,000 times where it is given a word.
#![tactic(auto)]

use alt_decimal::Decimal;
use std::env;

fn main(rt: HostRuntime) {
    let rounds: u32 = match env::args(&rt) {
        Ok(args) => {
            if args.count() > 1 {
                101_000
            } else {
                1_000
            }
        }
        Err(_) => 0,
    };
    let mut text = *b"-12345678901234567890.123456789012345678";
    let mut buf = [0u8; 176];
    let mut sum: usize = 0;
    for round in 0..rounds {
        text[5] = b'0' + (round % 10) as u8;
        if let Ok(number) = Decimal::parse(&text) {
            sum = sum.wrapping_add(number.print(&mut buf));
        }
    }
    let _ = println!(rt; "{sum}");
}
RATTLE
build
echo "parse and print of 38 digits: $((($(instructions more) - $(instructions)) / 100000)) instructions"
start=$(date +%s%N)
"$program" more >/dev/null
end=$(date +%s%N)
echo "parse and print of 38 digits: $(((end - start) / 101000)) ns, the program's start included"
