# For scripts of bash to read, at the top of the repository: what makes and runs a program for x86-64, for which alone the library is made.
# It sets `compiler` and `runner`; the tools that go with the compiler are named like it, as ${compiler%gcc}g++. `declared_functions HEADER`
# names the functions that the library has to have.

tools/needs x86-64
if [ "$(uname -m)" = x86_64 ]; then
    compiler=gcc
    runner=()
else
    tools/needs emulator
    compiler=x86_64-linux-gnu-gcc
    root=/usr/x86_64-linux-gnu
    # The library is made for x86-64-v2, and this is the plainest such processor: for a later one the C library copies with instructions that
    # an emulator has to take byte by byte, and all is ten times as slow.
    runner=(qemu-x86_64 -cpu Nehalem -L "$root")
fi

# The inline ones call those that are declared, so that a name may stand there twice.
declared_functions() { gcc -E -P "$1" | tr '\n' ' ' | grep -oE 'hallviska_[a-z_]+\([^()]*\);' | sed 's/(.*//' | sort -u; }
