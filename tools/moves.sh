#!/usr/bin/env bash
# Two misuses of a session that the build refuses, each because a value was moved: a task submitted to a closed session, and a
# second session on a scanner that is already in one. No edit of must-fail/ can show it, since an error of the borrow checker is
# no refusal of the prover. So a program with both is built in a scratch copy, where each has to draw the very error at its own
# line; and the same program without those two lines has to build and run.
set -euo pipefail
top=$(cd "$(dirname "$0")/.." && pwd)
scratch=$(mktemp -d)
trap 'rm -rf "$scratch"' EXIT
tar -C "$top" --exclude=out -cf - crates crates.txt | tar -C "$scratch" -xf -
program=$scratch/crates/moves
mkdir -p "$program/src"
echo 'moves: names table scanner scanners session' >>"$scratch/crates.txt"
cat >"$program/src/main.rt" <<'PROGRAM'
// Sessions on the flatbed.
#![tactic(auto)]

use scanners::Flatbed;
use session::Session;
use std::alloc::Global;
use table::Record;

fn one_session(heap: Global) {
    let mut table = [Record::Vacant; 4];
    let Ok(mut session) = Session::open(heap, Flatbed::new()) else {
        return;
    };
    let _ = session.submit(b"{}", &mut table);
    drop(session.close());
    let _ = session.submit(b"{}", &mut table); // misuse
}

fn two_sessions(heap: Global) {
    let flatbed = Flatbed::new();
    let Ok(first) = Session::open(heap, flatbed) else {
        return;
    };
    drop(Session::open(heap, flatbed).map(Session::close)); // misuse
    let Ok(second) = Session::open(heap, first.close()) else {
        return;
    };
    drop(second.close());
}

fn main(rt: HostRuntime) {
    one_session(rt.alloc());
    two_sessions(rt.alloc());
}
PROGRAM

# Tries the program as it stands, without proving it.
try() {
    (cd "$program" && rt try) >"$scratch/log" 2>&1
}

fail() {
    echo "$1" >&2
    tail -n 3 "$scratch/log" >&2
    exit 1
}

# The misuse with this text is refused at its line, with these words.
refused() {
    local line
    line=$(grep -nF "$1" "$program/src/main.rt" | grep 'misuse$' | cut -d: -f1)
    grep -qE "^src/main\.rt:$line:[0-9]+: error\[borrow-e0382\]: $2" "$scratch/log" || fail "not refused: $3"
    echo "refused by the build: $3"
}

if try; then
    fail 'the build refuses neither misuse'
fi
refused 'session.submit' 'borrow of moved value: `session`' 'a task submitted to a closed session'
refused 'Session::open' 'use of moved value: `flatbed`' 'a second session on a scanner that is already in one'
sed -i '/misuse$/d' "$program/src/main.rt"
try || fail 'the program without the misuses does not build'
