# For scripts of bash to read: what makes and runs a program for x86-64 (tools/x86-64.sh), and cargo, which all who read this need too.

tools/needs rust
. tools/x86-64.sh
