# For scripts of bash to read, after x86-64.sh: compiles the independent program for x86-64 and sets `second`, the words that link it.
# The script sets `built` before.

rust=(rustc --edition 2021 --crate-name second -C opt-level=3 -C panic=abort -C codegen-units=1 --cfg 'feature="export"')

if [ "$(uname -m)" = x86_64 ]; then
    "${rust[@]}" --crate-type staticlib compare/second/src/lib.rs -o "$built/libsecond.a"
    # the compiler's own library names this function, which only unwinding would call
    second=("$built/libsecond.a" -Wl,--defsym=rust_eh_personality=0)
else
    # Before any optimization the intermediate code is the same for both processors, but for what is named here.
    "${rust[@]}" --crate-type lib --emit llvm-ir -C no-prepopulate-passes compare/second/src/lib.rs -o "$built/second.ll"
    sed -i -E "$built/second.ll" \
        -e 's/^target datalayout = .*/target datalayout = "e-m:e-p270:32:32-p271:32:32-p272:64:64-i64:64-i128:128-f80:128-n8:16:32:64-S128"/' \
        -e 's/^target triple = .*/target triple = "x86_64-unknown-linux-gnu"/' \
        -e '/^attributes/ { s/"target-cpu"="[^"]*"/"target-cpu"="x86-64"/; s/"(target-features|frame-pointer)"="[^"]*"//g }'
    tools/needs clang
    clang --target=x86_64-linux-gnu -O3 -c -x ir "$built/second.ll" -o "$built/second.o"
    # What is missing is the compiler's own library for x86-64. Only a panic would call it, and there is none.
    second=("$built/second.o")
    for name in $(nm -u "$built/second.o" | awk '$2 ~ /4core/ { print $2 }'); do second+=("-Wl,--defsym=$name=abort"); done
fi
