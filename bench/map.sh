#!/usr/bin/env bash
# Proves and builds the program, and prints the seconds of processor time of `map` on descriptions of 0.25, 0.5 and
# 1 MiB that fill 256, 512 and 1,024 bus words, and on one of 1,048,576 registers, which is refused. Run it from
# anywhere; the first run takes long, since all crates below are proved first. With the file of a built program as its
# word it proves nothing.
set -euo pipefail
here="$(cd "$(dirname "${BASH_SOURCE[0]}")" && pwd)"
work="$(mktemp -d)"
trap 'rm -rf "$work"' EXIT
program="${1:-}"
if [ -z "$program" ]; then
    (cd "$here/../crates/rdlprove" && rt run < /dev/null > "$work/build.log")
    program="$here/../crates/rdlprove/out/rdlprove"
fi

# description WORDS: a text of WORDS KiB, a register of four fields in each.
description() {
    python3 - "$1" <<'PYTHON'
import sys

def register(number):
    fields = "".join(
        f"    field {{ desc = \"bit {bit} of the register\"; sw = rw; hw = r; onread = rclr; }} f{bit} = {bit % 2};\n"
        for bit in range(4)
    )
    head = f"  reg {{\n{fields}    desc = \""
    tail = f"\";\n  }} r{number};\n"
    return head + "x" * (1024 - len(head) - len(tail)) + tail

words = int(sys.argv[1])
text = "addrmap a {\n" + "".join(register(number) for number in range(words)) + "};\n"
# the two lines around take a few bytes of the last words
sys.stdout.write(text.replace("x" * 40, "x", 1) if words == 1024 else text)
PYTHON
}

# timed FILE: seconds of user time, and the first line and the number of lines that `map` puts.
timed() {
    local TIMEFORMAT='%U'
    time ("$program" map "$1" > "$work/out" || true)
    echo "$(wc -c < "$1") bytes, $(wc -l < "$work/out") lines, the first: $(head -n 1 "$work/out")"
}

cd "$work"
for words in 256 512 1024; do
    description "$words" > "d$words.rdl"
    timed "d$words.rdl"
done
echo "addrmap a { reg { field {} f; } c[1048576]; };" > many.rdl
timed many.rdl
