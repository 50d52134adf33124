#!/bin/sh
# native.sh KIT NAME WORK: for aarch64, proves the static library NAME and compiles the proved LLVM module for that processor, to the
# archive WORK/libNAME.a. rt itself builds for x86-64, so its clang is made to keep a copy of the module and of its
# words. Then the same clang compiles that with the same words, but those that name the target. rt's log is WORK/log.
set -eu

kit=$1 library=$2 work=$3
clang=$kit/toolchain/bin/clang
target=aarch64-unknown-linux-gnu
fail() { printf 'bench/native.sh: %s\n' "$*" >&2; exit 1; }

# mirror FROM TO SKIP: TO gets a link to each thing in FROM but SKIP. A program that goes by its name keeps it.
mirror() {
    mkdir -p "$2"
    for f in "$1"/*; do
        name=${f##*/}
        [ "$name" = "$3" ] || ln -s "$f" "$2/$name"
    done
}

# The kit again, by links, but for a clang of our own and for rt's scripts, which take the folder in which they lie for the kit's. The clang
# is run with an empty environment: its paths are written out.
copy=$work/kit
mirror "$kit" "$copy" bin
rm "$copy/toolchain"
mirror "$kit/bin" "$copy/bin" ''
rm "$copy/bin/rt" "$copy/bin/rtlib.py"
cp "$kit/bin/rt" "$kit/bin/rtlib.py" "$copy/bin"
mirror "$kit/toolchain" "$copy/toolchain" bin
mirror "$kit/toolchain/bin" "$copy/toolchain/bin" clang
cat >"$copy/toolchain/bin/clang" <<WRAPPER
#!/bin/sh
for word in "\$@"; do case \$word in *.bc) cp "\$word" "$work/module.bc" ;; esac; done
printf '%s\n' "\$@" >"$work/words"
exec "$clang" "\$@"
WRAPPER
chmod +x "$copy/toolchain/bin/clang"

RT=$copy/bin/rt tools/staticlib "$library" >"$work/log" 2>&1 || { cat "$work/log" >&2; fail "$library is not proved"; }
[ -f "$work/module.bc" ] || fail 'no module came by'

# The module's layout, triple and processor become this machine's; all else stays.
"$clang" --target=x86_64-unknown-linux-gnu -Xclang -disable-llvm-passes -S -emit-llvm \
    -x ir "$work/module.bc" -o "$work/x86.ll"
layout=$(echo 'int x;' | "$clang" --target=$target -S -emit-llvm -x c - -o - |
    sed -n 's/^target datalayout = "\(.*\)"$/\1/p')
[ -n "$layout" ] || fail "no data layout for $target"
sed -e "s|^target datalayout = .*|target datalayout = \"$layout\"|" \
    -e "s|^target triple = .*|target triple = \"$target\"|" \
    -e 's|"target-cpu"="x86-64[-v0-9]*"|"target-cpu"="generic"|g' "$work/x86.ll" >"$work/module.ll"

# What means something else here, or nothing, would make the figure one of another program.
foreign='llvm\.x86\.|x86_fp80|"target-features"|"target-cpu"="x86|asm sideeffect|byval\(|sret\('
if grep -nE "$foreign" "$work/module.ll" >&2; then
    fail 'the module has what x86-64 alone has'
fi
if grep -nE '^define (noundef )?(\{.*\}|ptr) @' "$work/module.ll" >&2; then
    fail 'an exported function returns a struct or a reference: C passes those by rules of each processor'
fi

set --
skip=no
while IFS= read -r word; do
    if [ $skip = yes ]; then skip=no; continue; fi
    case $word in
    --target=* | -march=* | --sysroot=* | *.bc) ;;
    -o) skip=yes ;;
    *) set -- "$@" "$word" ;;
    esac
done <"$work/words"
"$clang" --target=$target "$@" "$work/module.ll" -o "$work/$library.o"
"$kit/toolchain/bin/llvm-ar" rcs "$work/lib$library.a" "$work/$library.o"
