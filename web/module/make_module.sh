#!/usr/bin/env bash
# make_module.sh MODULE OUT.wasm: compiles the program's LLVM module, which Rattle's backend makes for x86-64 Linux, for WebAssembly.
#
# Both machines have addresses of 64 bits, the same order of bytes and the same alignments. So the layout and the name of x86-64, and five attributes that
# only x86-64 has, are exchanged in the module's text; it is compiled and linked for 64-bit WebAssembly; then Binaryen lowers its memory to 32 bits, which
# every browser has, and lets the program be put aside while it reads. No proof covers these steps.
set -eu
here=$(dirname "$(readlink -f "$0")") kit=$(dirname "$(rt doc </dev/null)")
clang=$kit/toolchain/bin/clang
room=$(mktemp -d)
trap 'rm -rf "$room"' EXIT

# How rattle calls clang for wasm64.
flags=(--target=wasm64-unknown-unknown -mcpu=lime1 -mllvm -expand-div-rem-bits=64 -mllvm -expand-fp-convert-bits=64)
flags+=(-mllvm -trap-unreachable -mllvm -disable-machine-licm -mllvm -disable-postra-machine-licm -mllvm -sink-common-insts=false)
flags+=(-ffunction-sections -fdata-sections --no-default-config -no-canonical-prefixes -fintegrated-cc1 -O3 -c)
layout='e-m:e-p:64:64-p10:8:8-p20:8:8-i64:64-i128:128-n32:64-S128-ni:1:10:20'
only_x86='probe-stack\|stack-probe-size\|target-cpu\|target-features\|frame-pointer'

"$clang" --target=x86_64-unknown-linux-gnu --no-default-config -O0 -S -emit-llvm -x ir "$1" -o "$room/linux.ll"
sed -e "s/^target datalayout = .*/target datalayout = \"$layout\"/" \
  -e 's/^target triple = .*/target triple = "wasm64-unknown-unknown"/' \
  -e "/^attributes /s/ \"\\($only_x86\\)\"=\"[^\"]*\"//g" \
  -e 's/^\(attributes #[0-9]* = \){ }/\1{ nounwind }/' "$room/linux.ll" >"$room/web.ll"
"$clang" "${flags[@]}" -Werror -x ir "$room/web.ll" -o "$room/web.o"
for part in heap host; do
  "$clang" "${flags[@]}" -Wall -Werror -fno-builtin -nostdinc "$here/$part.c" -o "$room/$part.o"
done
# lld goes by the name by which it is called. The stack comes first in the memory, so that one that is too deep is a trap.
(exec -a wasm-ld "$clang" -mwasm64 --no-entry --gc-sections --strip-all -z stack-size=1048576 --stack-first -o "$room/wide.wasm" "$room"/{web,heap,host}.o)
python3 "$here/no_table.py" "$room/wide.wasm" "$room/wide.wasm"

features=(--enable-bulk-memory --enable-sign-ext --enable-nontrapping-float-to-int --enable-mutable-globals)
wasm-opt "${features[@]}" --enable-memory64 --enable-multivalue --memory64-lowering "$room/wide.wasm" -o "$room/narrow.wasm"
wasm-opt "${features[@]}" --asyncify --pass-arg=asyncify-imports@host.read -O2 "$room/narrow.wasm" -o "$2"
