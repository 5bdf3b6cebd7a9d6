#!/usr/bin/env bash
# Two programs that the compiler turns down, each with its own error: one lets a ticket fall unspent, one uses it
# after an accepted settle. The same program with the ticket settled is accepted, so that nothing else is the reason.
set -euo pipefail
cd "$(dirname "$0")/.."
work=$(mktemp -d)
trap 'rm -rf "$work"' EXIT

# a repository with the libraries alone, and a program for each ending: only the compiler is asked, nothing is proved
mkdir "$work/crates"
for name in machine store explorer; do
  mkdir "$work/crates/$name"
  cp -r "crates/$name/src" "crates/$name/specs" "crates/$name/proofs" "$work/crates/$name/"
  grep "^$name:" crates.txt >> "$work/crates.txt"
done

# program NAME ENDING: a function that begins a search and then does as ENDING says
program() {
  mkdir -p "$work/crates/$1/src"
  echo "$1: machine store explorer" >> "$work/crates.txt"
  cat > "$work/crates/$1/src/main.rt" <<RT
use explorer::explorer::Explorer;
use explorer::returned::Returned;
use machine::machine::Machine;
use store::store::Store;

fn ask<M: Machine, S: Store>(explorer: &mut Explorer, machine: &M, store: &mut S) -> Option<Returned> {
    let Ok(ticket) = explorer.begin(machine, store) else {
        return None;
    };
    $2
}

fn main() {}
RT
}

compile() {
  (cd "$work/crates/$1" && rt try > "$work/$1.out" 2>&1)
}

# refused NAME ERROR: the compiler turns NAME down, and its first error is that one
refused() {
  if compile "$1"; then
    echo "tickets: the program '$1' was accepted" >&2
    exit 1
  fi
  first=$(grep -m1 -o 'error\[[^]]*\]' "$work/$1.out" || true)
  if [ "$first" != "error[$2]" ]; then
    echo "tickets: the program '$1' was turned down with '$first' and not for $2" >&2
    exit 1
  fi
  echo "turned down, $2: $1"
}

program settled 'match explorer.settle(ticket, machine, store) {
        Ok(_) => None,
        Err(returned) => Some(returned),
    }'
program unspent 'None'
program spent_twice 'match explorer.settle(ticket, machine, store) {
        Ok(_) => {
            let _ = explorer.verdict(&ticket, machine, store);
            None
        }
        Err(returned) => Some(returned),
    }'

if ! compile settled; then
  echo "tickets: the program with its ticket settled was turned down" >&2
  grep -m1 error "$work/settled.out" >&2 || true
  exit 1
fi
echo "accepted: settled"
refused unspent linear-value-let-go
refused spent_twice borrow-e0382
