#!/bin/sh
# Times `parse` of grant_parse on 200,000 mixed statements, and on commands of 4,096 bytes, on the proved build.
# A program is proved and built in a folder of its own, which takes some minutes, and the folder
# is removed. Run it on a machine that does nothing else.
set -eu

top=$(cd "$(dirname "$0")/.." && pwd)
scratch=$(mktemp -d)
trap 'rm -rf "$scratch"' EXIT

mkdir -p "$scratch/crates/times/src"
for crate in acl_items acl_grammar priv_sets grant_lex acl_names account_match login_throttle \
    mandatory_roles acl_stmt grant_words user_statements grant_refusal priv_items privilege_statements grant_parse
do
    cp -R "$top/crates/$crate" "$scratch/crates/"
    grep "^$crate:" "$top/crates.txt" >> "$scratch/crates.txt"
done
printf 'times: acl_items acl_names acl_stmt grant_parse grant_refusal\n' >> "$scratch/crates.txt"

cat > "$scratch/crates/times/src/main.rt" <<'PROGRAM'
#![tactic(auto)]

use grant_parse::parse;
use std::alloc::Global;
use std::io;
use std::time::{Clock, Duration, Instant};

const STATEMENTS: [&str; 16] = [
    "CREATE USER IF NOT EXISTS u1",
    "CREATE USER 'u2'@'localhost' IDENTIFIED BY 'secret' FAILED_LOGIN_ATTEMPTS 3 PASSWORD_LOCK_TIME 1",
    "ALTER USER u1 ACCOUNT LOCK",
    "DROP USER IF EXISTS u1, u2@localhost",
    "RENAME USER u1 TO u3",
    "CREATE ROLE IF NOT EXISTS r1, r2",
    "GRANT SELECT ON d1.* TO u1",
    "GRANT SELECT (a, b), INSERT, UPDATE (c) ON d1.t1 TO u1, u2 WITH GRANT OPTION",
    "GRANT r1, r2 TO u1, u2 WITH ADMIN OPTION",
    "GRANT CREATE TEMPORARY TABLES, LOCK TABLES ON `d\\_1`.* TO u1",
    "REVOKE SELECT, DELETE ON *.* FROM u1",
    "REVOKE ALL PRIVILEGES, GRANT OPTION FROM u1, u2",
    "REVOKE r1 FROM u1",
    "SET DEFAULT ROLE ALL TO u1",
    "SET PERSIST mandatory_roles = 'r1,r2@localhost'",
    "GRANT SELECT ON TO u1",
];

const ROUNDS: usize = 12_500;
const LONG_CALLS: usize = 500;

fn time_mixed<C: Clock>(clock: &C, alloc: Global) -> io::Result<(u64, Duration)> {
    let start = Instant::now(clock)?;
    let mut read: u64 = 0;
    for _ in 0..ROUNDS {
        for text in STATEMENTS {
            if parse(alloc, text, 4096).is_ok() {
                read = read.saturating_add(1);
            }
        }
    }
    Ok((read, start.elapsed(clock)?))
}

fn time_long<C: Clock>(clock: &C, alloc: Global, text: &str) -> io::Result<(u64, Duration)> {
    let start = Instant::now(clock)?;
    let mut read: u64 = 0;
    for _ in 0..LONG_CALLS {
        if parse(alloc, text, 4096).is_ok() {
            read = read.saturating_add(1);
        }
    }
    Ok((read, start.elapsed(clock)?))
}

// 16 bytes, and 8 for each further name.
fn drops(alloc: Global, names: usize) -> io::Result<String> {
    let mut text = String::from_str(alloc, "DROP USER first0")?;
    for _name in 0..names {
        text.push_str(", user12")?;
    }
    Ok(text)
}

fn main(rt: HostRuntime) -> io::Result<()> {
    let (read, mixed) = time_mixed(&rt, rt.alloc())?;
    println!(rt; "200000 statements, {read} of them read, {} ms", mixed.as_millis())?;
    println!(rt; "{:.0} statements a second", 200_000.0 / mixed.as_secs_f64())?;
    let half = drops(rt.alloc(), 254)?;
    let whole = drops(rt.alloc(), 510)?;
    let (half_read, half_time) = time_long(&rt, rt.alloc(), half.as_str())?;
    let (whole_read, whole_time) = time_long(&rt, rt.alloc(), whole.as_str())?;
    println!(rt; "{} and {} bytes, read {half_read} and {whole_read} times: the longer takes {:.2} times as long", half.len(), whole.len(), whole_time.as_secs_f64() / half_time.as_secs_f64())
}
PROGRAM

cd "$scratch/crates/times"
if ! rt run > "$scratch/times" 2> "$scratch/log"; then
    cat "$scratch/log" >&2
    exit 1
fi
cat "$scratch/times"
