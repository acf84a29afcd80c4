"""Drives machines by the Python package. Each line of standard input is a case: README.md has its words. What is written goes to NAME.out, what is said to NAME.err, and 3 to
NAME.status if the system failed, 0 if not."""

import errno
import io
import os
import sys
from pathlib import Path

import lemidrosy


class Pieces(io.RawIOBase):
    """Bytes that come in odd pieces, by a seed; whole with seed 0; not at all with `fails`."""

    def __init__(self, data, reads):
        self.rest = data
        self.reads = reads
        self.state = int(reads) if reads != "fails" else 0

    def readable(self):
        return True

    def readinto(self, buffer):
        if self.reads == "fails":
            raise OSError(errno.EISDIR, os.strerror(errno.EISDIR))
        size = len(buffer)
        if self.reads != "0":
            self.state = (self.state * 1664525 + 1013904223) % 2**32
            size = 1 + (self.state >> 16) % min(size, 97)
        part, self.rest = self.rest[:size], self.rest[size:]
        buffer[: len(part)] = part
        return len(part)


class Full(io.BytesIO):
    """It takes that many writes, then no more; any number with `-`. A write takes five bytes less than it is handed, where there are as many."""

    def __init__(self, writes):
        super().__init__()
        self.left = None if writes == "-" else int(writes)
        self.is_begun = False

    def write(self, part):
        if not self.is_begun and self.left == 0:
            raise OSError(errno.ENOSPC, os.strerror(errno.ENOSPC))
        if not self.is_begun and self.left is not None:
            self.left -= 1
        self.is_begun = len(part) > 5
        return super().write(part[:-5] if self.is_begun else part)


for line in sys.stdin:
    name, program, reads, writes = line.split()
    words = Path(f"{name}.words").read_bytes().split(b"\0")[:-1]
    output, errors = Full(writes), io.BytesIO()
    source = Pieces(Path(f"{name}.in").read_bytes(), reads)
    # what is opened comes in pieces too
    more = {} if reads in ("0", "fails") else {"opens": lambda path, reads=reads: Pieces(open(path, "rb").read(), reads)}
    failed = lemidrosy.drive(lemidrosy.Machine(program), source, output, errors, words, **more)
    Path(f"{name}.out").write_bytes(output.getvalue())
    Path(f"{name}.err").write_bytes(errors.getvalue())
    Path(f"{name}.status").write_text("0\n" if failed is None else "3\n")
