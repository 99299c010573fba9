"""Reads the machine code of an archive and names each instruction whose shift, rotate or bit place is a number that varies.

usage: shifts.py ARCHIVE [--but FUNCTION]... [--straight]

The count or place of such an instruction is to be written in it. A product, a mask and a table are no shifts. A function
outside the archive is one of the C library's for memory: a shift of 128 bits would be a call of the compiler's own library.

--but FUNCTION   this one may shift
--straight       the functions are straight code besides: no jump back, no jump or call to a place that varies, no call at
                 all, no division
"""
import re
import subprocess
import sys

MEMORY = {"memcpy", "memmove", "memset", "memcmp", "bcmp"}
FUNCTION = re.compile(r"([0-9a-f]+) <(.+)>:$")
INSTRUCTION = re.compile(r"\s+([0-9a-f]+):\t(?:(?:data16|[c-gs]s|lock|notrack|bnd|rep[nz]*) +)*(\S+)\s*([^#<]*)")
# In the notation of objdump the count stands first, and alone is the word that is moved by one place.
COUNTED = re.compile(
    r"(?:(?:sa|sh|ro|rc)[lr]|sh[lr]d|(?:sa|sh)[lr]x|rorx|bt[src]?)[bwlq]?"  # words
    r"|bzhi[lq]?|bextr[lq]?|p(?:dep|ext)[lq]?"  # fields of bits
    r"|v?ps(?:ll|rl|ra)(?:v?[wdq]|dq)|vpro[lr]v?[dq]|vpsh[lr]dv?[wdq]|vp(?:sha|shl|rot)[bwdq]"  # several words at once
)
JUMP = re.compile(r"j[a-z]+|loop[a-z]*")
DIVISION = re.compile(r"i?div[bwlq]?")


def varies(name, operands):
    """Whether an instruction moves or tests bits by a count that is not written in it. One that is not known may."""
    if name == "(bad)":
        return True
    if not COUNTED.fullmatch(name):
        return False
    first, _, rest = operands.partition(",")
    return bool(rest) and not first.startswith("$")


def bent(name, operands, place, start):
    """Whether an instruction keeps its function from being straight code."""
    if name == "call" or DIVISION.fullmatch(name):
        return True
    if not JUMP.fullmatch(name):
        return False
    target = re.match(r"[0-9a-f]+", operands)
    return target is None or start <= int(target[0], 16) <= place


def printed(*command):
    return subprocess.run(command, check=True, capture_output=True, text=True).stdout


def looked_at(archive, but, straight):
    """The functions of an archive, the number of their instructions, and what is wrong with them."""
    functions, count, wrong, start = [], 0, [], 0
    for line in printed("objdump", "-d", "--no-show-raw-insn", archive).splitlines():
        if head := FUNCTION.match(line):
            start = int(head[1], 16)
            functions.append(head[2])
        elif found := INSTRUCTION.match(line):
            place, name, operands = int(found[1], 16), found[2], found[3].strip()
            count += 1
            if functions[-1] in but:
                continue
            if varies(name, operands) or straight and bent(name, operands, place, start):
                wrong.append(f"{functions[-1]}: {name} {operands}")
    return functions, count, wrong


def main(words):
    archive, but, straight = None, [], False
    words = iter(words)
    for word in words:
        if word == "--but":
            but.append(next(words))
        elif word == "--straight":
            straight = True
        else:
            archive = word
    functions, count, wrong = looked_at(archive, but, straight)
    wrong += [f"not in the library: {name}" for name in but if name not in functions]
    outside = {line.split()[-1] for line in printed("nm", "-u", archive).splitlines() if line.split()[:1] == ["U"]}
    wrong += [f"calls {name}" for name in sorted(outside - MEMORY - set(functions))]
    for line in wrong:
        print(line)
    print(f"{len(functions)} functions, {count} instructions, {len(wrong) or 'nothing'} wrong")
    return 1 if wrong or not count else 0


if __name__ == "__main__":
    sys.exit(main(sys.argv[1:]))
