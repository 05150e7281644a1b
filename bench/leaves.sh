#!/usr/bin/env bash
# Prints the time of each float leaf, of fma and sqrt beside the processor's own. Not a test. Needs bindings/build and a C compiler.
#   CC: the C compiler. KERMEZHUL_STATICLIB: the folder of libabi.a.
set -euo pipefail
cd "$(dirname "$0")/.."
made="$(mktemp -d)"
trap 'rm -rf "$made"' EXIT
own=()
[ "$(uname -m)" != x86_64 ] || own=(-mfma)
"${CC:-cc}" -O2 "${own[@]}" -fno-math-errno -o "$made/leaves" bench/leaves.c "${KERMEZHUL_STATICLIB:-target/staticlib}/libabi.a" -lm
"$made/leaves"
