"""Finds the places of a program at which something is counted. The tools of the kit read the program."""
import re
import struct
import subprocess

from hostile_rows.shims import call, kit
from hostile_rows.texts import Wrong

# How many bytes of the operations at a place the library needs.
JUMP = 5
# How an operation begins that means something else at another place.
TIED = re.compile(r"j|call|ret|loop|xbegin|.*rip")
# A swap of a register with the word at an address.
SWAP = re.compile(r"xchgq\s+%(\w+), \(%\w+\)")
# What the lock of a turn book is while a thread may sleep on it: `AWAITED` of turn_book.
AWAITED = 2
# Among how many operations behind a swap that comparison stands.
SOON = 3


def kit_tool(name, *words):
    """What a tool of LLVM prints, which the kit's compiler is by another name."""
    return call(name, *words, executable=f"{kit()}/toolchain/bin/clang")


class Program:
    """A program: its entry point, its functions, its operations in their order, and where its jumps go."""

    def __init__(self, path):
        try:
            with open(path, "rb") as file:
                self.entry = struct.unpack_from("<Q", file.read(64), 24)[0]
            symbols = [line.split(" ", 2) for line in kit_tool("llvm-nm", "--defined-only", path).splitlines()]
            told = kit_tool("llvm-objdump", "--disassemble", "--no-show-raw-insn", path)
        except (OSError, struct.error, subprocess.CalledProcessError) as fault:
            raise Wrong(f"{path} is no program that can be read ({fault})") from fault
        self.functions = [(name, int(at, 16)) for at, kind, name in symbols if kind in "tT"]
        rows = re.findall(r"^ *([0-9a-f]+):\s+(.*)$", told, re.MULTILINE)
        self.operations = [(int(place, 16), text) for place, text in rows]
        self.numbers = {at: number for number, (at, _) in enumerate(self.operations)}
        self.targets = {int(found[1], 16) for _, text in self.operations if (found := re.match(r"j\w+\s+0x([0-9a-f]+)", text))}

    def function(self, name):
        """The place of the only function of this name."""
        named = re.compile(f"{re.escape(name)}(::<.*>)?")
        found = [at for symbol, at in self.functions if named.fullmatch(symbol)]
        if len(found) != 1:
            raise Wrong(f"the program has {len(found)} functions {name}, and not one; counter.py names those that are counted")
        return self.place(found[0])

    def place(self, at):
        """A place with the number of bytes of its first operations, of which a jump takes the place."""
        number = after = self.numbers[at]
        while self.operations[after][0] < at + JUMP:
            after += 1
        end = self.operations[after][0]
        is_tied = any(TIED.match(text) for _, text in self.operations[number:after])
        if is_tied or any(inside in self.targets for inside in range(at + 1, end)):
            raise Wrong(f"the operations at {at:x} cannot be moved, so nothing can be counted there")
        return at, end - at

    def freed_locks(self):
        """The places where a turn book's lock is freed. What it was is compared soon, since a thread may have to be woken. The
        compiler copies this into callers, so it is found by its shape, and not by a name."""
        places = []
        for number, (at, text) in enumerate(self.operations):
            swap = SWAP.fullmatch(text)
            if swap and self.is_compared(number + 1, swap[1]):
                places.append(self.place(at))
        if not places:
            raise Wrong("the program has no place where a turn book's lock is freed; places.py has what it looks like")
        return places

    def is_compared(self, number, register):
        """Whether the first of the next operations that names this register compares it with what an awaited lock is."""
        for _, text in self.operations[number:number + SOON]:
            if f"%{register}" in text:
                return bool(re.fullmatch(rf"cmpq\s+\$0x{AWAITED:x}, %{register}", text))
        return False
