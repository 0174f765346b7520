"""Which versions of the C library's symbols an ELF program asks for, read from its own tables."""

import re
import struct

# the tables of the dynamic section
NEEDED, STRINGS, VERSIONS, COUNT = 1, 5, 0x6FFFFFFE, 0x6FFFFFFF
LOAD, DYNAMIC = 1, 2
MACHINES = {62: "amd64", 183: "arm64"}
# Debian's package of each library of glibc
GLIBC = re.compile(r"GLIBC_\d+(\.\d+)+")
LIBRARIES = ("libc.so.", "libm.so.", "libpthread.so.", "libdl.so.", "librt.so.", "ld-linux-")


class NotKnown(Exception):
    """No ELF program of 64 bits, or one that needs more than the C library."""


class Program:
    """An ELF program of 64 bits, the least byte first: its machine, and what it needs of which library."""

    def __init__(self, path):
        with open(path, "rb") as file:
            self.bytes = file.read()
        if self.bytes[:6] != b"\x7fELF\x02\x01":
            raise NotKnown(f"{path} is no ELF program of 64 bits")
        self.machine = MACHINES.get(self.read("<H", 18)[0], "unknown")
        self.segments = list(self.all_segments())
        self.dynamic = list(self.all_dynamic())

    def read(self, form, at):
        return struct.unpack_from(form, self.bytes, at)

    def all_segments(self):
        """The kind, the place in the file, the address and the length of each segment."""
        begin, (size, count) = self.read("<Q", 32)[0], self.read("<HH", 54)
        for at in range(begin, begin + size * count, size):
            kind, _, offset, address, _, length = self.read("<IIQQQQ", at)
            yield kind, offset, address, length

    def place(self, address):
        """Where an address lies in the file."""
        for kind, offset, begin, length in self.segments:
            if kind == LOAD and begin <= address < begin + length:
                return offset + address - begin
        raise NotKnown(f"no segment has the address {address:#x}")

    def all_dynamic(self):
        for kind, offset, _, length in self.segments:
            if kind == DYNAMIC:
                yield from (self.read("<QQ", at) for at in range(offset, offset + length, 16))

    def entries(self, tag):
        return [value for it, value in self.dynamic if it == tag]

    def text(self, offset):
        begin = self.place(self.entries(STRINGS)[0]) + offset
        return self.bytes[begin : self.bytes.index(b"\0", begin)].decode()

    def libraries(self):
        return [self.text(it) for it in self.entries(NEEDED)]

    def versions(self):
        """The library and the name of each version that is asked for, as `libc.so.6` and `GLIBC_2.34`."""
        if not self.entries(VERSIONS):
            return
        at = self.place(self.entries(VERSIONS)[0])
        for _ in range(self.entries(COUNT)[0]):
            _, count, library, first, next_one = self.read("<HHIII", at)
            inner = at + first
            for _ in range(count):
                _, _, _, name, further = self.read("<IHHII", inner)
                yield self.text(library), self.text(name)
                inner += further
            at += next_one


def numbers(version):
    return tuple(map(int, version.split(".")))


def glibc(path):
    """The least glibc that has all that the program asks for, as `2.34`; it may need nothing else."""
    program = Program(path)
    others = [it for it in program.libraries() if not it.startswith(LIBRARIES)]
    asked = {name for _, name in program.versions()}
    foreign = sorted(it for it in asked if not GLIBC.fullmatch(it))
    if others or foreign or not asked:
        raise NotKnown(f"{path} needs {' '.join([*others, *foreign]) or 'no library'}, and not glibc alone")
    return max((it.removeprefix("GLIBC_") for it in asked), key=numbers)
