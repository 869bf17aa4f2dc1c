#!/bin/sh
# Times `or_into` of mask_lanes on 4,096 words against the plain loop, both on the proved build.
# A program is proved and built in a folder of its own, which takes some minutes, and the folder
# is removed. Run it on a machine that does nothing else.
set -eu

top=$(cd "$(dirname "$0")/.." && pwd)
scratch=$(mktemp -d)
trap 'rm -rf "$scratch"' EXIT

mkdir -p "$scratch/crates/times/src"
cp -R "$top/crates/mask_lanes" "$scratch/crates/"
printf 'mask_lanes:\ntimes: mask_lanes\n' > "$scratch/crates.txt"

cat > "$scratch/crates/times/src/main.rt" <<'PROGRAM'
#![tactic(auto)]

ghost use Rattle.std.specs.Prelude.{◌≡◌, length};

use mask_lanes::or_into;
use std::io;
use std::time::{Clock, Duration, Instant};

const WORDS: usize = 4096;
const CALLS: usize = 20_000;
const SAMPLES: usize = 50;

#[inline(never)]
fn or_by_lanes(to: &mut [u64], from: &[u64])
    requires { length to.old ≡ length from.now }
{
    or_into(to, from);
}

#[inline(never)]
fn or_by_words(to: &mut [u64], from: &[u64])
    requires { length to.old ≡ length from.now }
{
    for at in 0..to.len() {
        to[at] |= from[at];
    }
}

fn time_calls<C: Clock>(clock: &C, lanes: bool, to: &mut [u64], from: &[u64]) -> io::Result<Duration>
    requires { length to.old ≡ length from.now }
{
    let start = Instant::now(clock)?;
    for _ in 0..CALLS {
        if lanes {
            or_by_lanes(to, from);
        } else {
            or_by_words(to, from);
        }
    }
    start.elapsed(clock)
}

fn main(rt: HostRuntime) -> io::Result<()> {
    let mut by_lanes = [0; WORDS];
    let mut by_words = [0; WORDS];
    let mut from = [0; WORDS];
    for at in 0..WORDS {
        from[at] = at as u64;
    }
    let mut lanes = time_calls(&rt, true, &mut by_lanes, &from)?;
    let mut words = time_calls(&rt, false, &mut by_words, &from)?;
    for _ in 0..SAMPLES {
        lanes = lanes.min(time_calls(&rt, true, &mut by_lanes, &from)?);
        words = words.min(time_calls(&rt, false, &mut by_words, &from)?);
    }
    println!(rt; "{CALLS} calls on {WORDS} words, the best of {SAMPLES}")?;
    println!(rt; "or_into     {} us", lanes.as_micros())?;
    println!(rt; "plain loop  {} us", words.as_micros())?;
    println!(rt; "ratio       {:.2}", words.as_secs_f64() / lanes.as_secs_f64())?;
    println!(rt; "same words  {}", by_lanes == by_words)
}
PROGRAM

cd "$scratch/crates/times"
if ! rt run > "$scratch/times" 2> "$scratch/log"; then
    cat "$scratch/log" >&2
    exit 1
fi
cat "$scratch/times"
