#!/usr/bin/env bash
# Every crate folder stands in crates.txt, and every crate listed there has a folder.
set -euo pipefail
cd "$(dirname "$0")/.."
listed=$(sed -e 's/#.*//' -e '/^[[:space:]]*$/d' -e 's/:.*//' crates.txt | sort)
there=$(find crates -mindepth 1 -maxdepth 1 -type d -printf '%f\n' | sort)
if [ "$listed" != "$there" ]; then
  echo "crates.txt and crates/ differ:" >&2
  diff <(echo "$listed") <(echo "$there") >&2 || true
  exit 1
fi
echo "every crate is listed"
