#!/usr/bin/env bash
# Shows that two misuses of a set-up do not compile: adding a clamp after locking, and cutting against an open set-up.
# Each is a program that differs from an accepted one in one line, and the compiler names that fault. Takes no arguments, and
# writes to a temporary folder alone, where the libraries that the programs use are proved first.
set -uo pipefail
home=$(cd "$(dirname "$0")/.." && pwd -P) || exit 2
room=$(mktemp -d) || exit 2
trap 'rm -rf "$room"' EXIT
libraries='zmap cutters setups milling'
for library in $libraries; do
    mkdir -p "$room/crates/$library" || exit 2
    for part in src specs proofs; do
        cp -R "$home/crates/$library/$part" "$room/crates/$library/" || exit 2
    done
    grep "^$library:" "$home/crates.txt" >>"$room/crates.txt" || exit 2
done
cd "$room" || exit 2

# Writes the program NAME: the accepted one, with its line OLD as NEW.
program() { # NAME OLD NEW
    mkdir -p "crates/$1/src"
    echo "$1: $libraries" >>crates.txt
    text='// A set-up with one clamp, locked and cut against.
#![tactic(auto)]

use cutters::Cutter;
use milling::pose;
use setups::{Clamp, OpenSetup};
use zmap::{Field, Spot};

pub fn cut<F: Field + Drop, C: Cutter>(field: F, clamp: Clamp, cutter: &C, block: &mut [i32]) -> bool {
    let mut open = OpenSetup::new(field);
    let added = open.add(clamp).is_ok();
    let guard = open.lock();
    let again = added;
    let cut = pose(&guard, cutter, block, Spot { column: 0, row: 0, tip: 0 }).is_ok();
    again && cut
}'
    case $text in *"$2"*) ;; *) exit 2 ;; esac
    printf '%s\n' "${text/"$2"/"$3"}" >"crates/$1/src/lib.rt"
}

program accepted '' ''
program moved_set_up 'let again = added;' 'let again = open.add(clamp).is_ok();'
program locked_set_up 'let again = added;' 'let again = guard.add(clamp).is_ok();'
program open_guard 'let guard = open.lock();' 'let guard = open;'

wrong=0

# Says whether the outcome of the last program is as it must be.
told() { # YES WHAT
    if [ "$1" = yes ]; then echo "ok: $2"; else
        echo "WRONG: $2"
        cut -c1-300 said | tail -20
        wrong=1
    fi
}

# The program NAME has to be refused, with the error WORDS at LINE and no other error.
refused() { # NAME LINE WORDS WHAT
    (cd "crates/$1" && rt check) >said 2>&1
    status=$?
    answer=no
    if [ "$status" -eq 1 ] && [ "$(grep -c ': error' said)" -eq 1 ] && grep ": error" said | grep -F "src/lib.rt:$2:" | grep -qF "$3"; then answer=yes; fi
    told "$answer" "$4"
}

answer=no
if (cd crates/accepted && rt check) >said 2>&1 && grep -q '^fn accepted::cut: proved' said; then answer=yes; fi
told "$answer" 'accepted: a clamp is added, the set-up is locked, and a pose is cut against it'
refused moved_set_up 13 'error[borrow-e0382]: borrow of moved value: `open`' 'refused: a clamp is added to the open set-up after locking, which has ended it'
refused locked_set_up 13 'error[unknown-method]: no method named `add` found for type `Setup<F>`' 'refused: a clamp is added to the locked set-up, which has no such call'
refused open_guard 14 'error[mismatched-types]: expected `&Setup<_>`, found `&OpenSetup<F>`' 'refused: a pose is cut against the open set-up'
exit "$wrong"
