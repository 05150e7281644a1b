#!/usr/bin/env bash
# Prints the time of a point in a plot beside C's snprintf of the same text, for the points of the examples in the knife setting, as large as they are and enlarged,
# and for random points. Not a test. Needs bindings/build, cargo (tests/plot flattens the examples) and a C compiler: CC.
set -euo pipefail
cd "$(dirname "$0")/.."
folder="${KERMEZHUL_STATICLIB:-target/staticlib}"
made="$(mktemp -d)"
trap 'rm -rf "$made"' EXIT
tests/plot/run --texts "$made" > "$made/said"
if ! compgen -G "$made/*.points" > /dev/null; then
  cat "$made/said"
  exit 1
fi
"${CC:-cc}" -O2 -o "$made/plot" bench/plot.c "$folder/libabi.a" -lm
"$made/plot" "$made"/*.points
