#!/bin/sh
# growth.sh: the tables of docs/GROWTH.md and the plots docs/growth-*.svg, by `bench growth`; about a minute.
here=$(cd "$(dirname "$0")" && pwd)
docs=$here/../docs
work=$(mktemp -d) || exit 1
trap 'rm -rf "$work"' EXIT
(cd "$here" && cargo run --release --quiet -- growth "$docs") >"$work/growth" && cp "$work/growth" "$docs/GROWTH.md"
