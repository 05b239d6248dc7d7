#!/usr/bin/env bash
# make_heap.sh OUT.wasm: the heap of the page by itself, for its test.
set -eu
module=$(dirname "$(readlink -f "$0")")/../module clang=$(dirname "$(rt doc </dev/null)")/toolchain/bin/clang
room=$(mktemp -d)
trap 'rm -rf "$room"' EXIT
"$clang" --target=wasm64-unknown-unknown -mcpu=lime1 -O3 -fno-builtin -nostdinc --no-default-config -c "$module/heap.c" -o "$room/heap.o"
exports=(--export=heap_take --export=heap_free --export=heap_resize --export=__multi3)
(exec -a wasm-ld "$clang" -mwasm64 --no-entry "${exports[@]}" -o "$room/wide.wasm" "$room/heap.o")
python3 "$module/no_table.py" "$room/wide.wasm" "$room/wide.wasm"
wasm-opt --enable-memory64 --enable-bulk-memory --enable-sign-ext --enable-mutable-globals --enable-multivalue --enable-nontrapping-float-to-int \
  --memory64-lowering "$room/wide.wasm" -o "$1"
