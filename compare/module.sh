# For scripts of bash to read, after x86-64.sh: `keep_module` makes the library, and keeps the module that the
# toolchain compiles it from as $built/module.bc; `compile_module OBJECT WORD...` compiles that module as the library is compiled, but for
# these words. The script sets `built` before.

tools/needs rt
machine=$(uname -m)
kit=$(dirname "$(dirname "$(readlink -f "$(command -v rt)")")")

# quietly LOG COMMAND...: what it says is only of interest where it fails
quietly() { "${@:2}" >"$built/$1" 2>&1 || { cat "$built/$1" >&2; exit 2; }; }

# A copy of the toolchain's folder, of links, whose compiler keeps the module that it is given, and the words. It lies outside the checkout, in which `rt ci`
# refuses links; and `rt` takes the folder above its own file for the toolchain's, so its own folder is copied.
keep_module() {
    local copy folder entry kept=$PWD/$built/module.bc
    copy=$(mktemp -d)
    rm -f "$kept"
    mkdir -p "$copy/toolchain/bin"
    cp -R "$kit/bin" "$copy/"
    for folder in . toolchain toolchain/bin; do
        for entry in "$kit/$folder"/*; do
            [ -e "$copy/$folder/${entry##*/}" ] || ln -s "$(realpath -s "$entry")" "$copy/$folder/"
        done
    done
    rm "$copy/toolchain/bin/clang"
    cat >"$copy/toolchain/bin/clang" <<END
#!/bin/sh
for word; do case \$word in *.bc) cp "\$word" '$kept' && printf '%s\\n' "\$@" >'$kept.words' ;; esac; done
exec '$kit/toolchain/bin/clang' "\$@"
END
    chmod +x "$copy/toolchain/bin/clang"
    (built=$PWD/$built && cd crates/hallviska && quietly lib.log "$copy/bin/rt" lib) || { rm -rf "$copy"; exit 2; }
    rm -rf "$copy"
    [ -f "$kept" ] || { echo "$0: the toolchain has compiled no module" >&2; exit 2; }
}

compile_module() {
    local words
    # all but where it lies, and what stands there by the toolchain's own names
    mapfile -t words < <(grep -vxE -e '--sysroot=.*|-Werror|-c|-x|ir|-o|.*\.(bc|o)' "$built/module.bc.words")
    quietly kiln.log "$kit/toolchain/bin/clang" "${words[@]}" "${@:2}" -c -x ir "$built/module.bc" -o "$1"
}
