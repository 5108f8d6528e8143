#!/usr/bin/env python3
"""Formats generated Rust from Python, by the shared library whose call c/lay.h describes.

usage: lay.py LIBRARY [FILE]

LIBRARY is liblay.so: `cargo build --release` in c/ makes it, and a release has it under lib/. The
text of the file, or of standard input, goes to standard output; where it is refused, `L:C: cause`
goes to standard error, and the exit status is 4. A generator imports `Library`."""
import ctypes
import sys

CAUSES = {1: "not UTF-8", 2: "no token", 3: "unbalanced delimiter", 4: "no item", 5: "no memory"}


class Answer(ctypes.Structure):
    """lay_answer of lay.h."""
    _fields_ = [(name, ctypes.c_size_t) for name in ("length", "at", "line", "column")]
    _fields_ += [("status", ctypes.c_uint32)]


class Refused(ValueError):
    """Why there is no text. `line` and `column`, in bytes, are from 1, and 0 without a place."""

    def __init__(self, answer):
        self.status, self.at = answer.status, answer.at
        self.line, self.column = answer.line, answer.column
        place = f"{self.line}:{self.column}: " if self.line else ""
        super().__init__(place + CAUSES.get(self.status, f"status {self.status}"))


class Library:
    """The shared library at a path. Calls keep no state, so several threads may share it."""

    def __init__(self, path):
        self.call = ctypes.CDLL(path).lay_format_slices
        self.call.restype = Answer
        self.call.argtypes = [ctypes.c_char_p, ctypes.c_size_t, ctypes.c_char_p, ctypes.c_size_t]

    def format(self, source):
        """The text of a source, a file of Rust, each as a `str`; or `Refused`."""
        given = source.encode()
        room = 2 * len(given) + 64
        while True:
            buffer = ctypes.create_string_buffer(room)
            answer = self.call(given, len(given), buffer, room)
            if answer.status:
                raise Refused(answer)
            if answer.length <= room:
                return buffer.raw[:answer.length].decode()
            # The text is longer than was guessed, and the answer tells how long.
            room = answer.length


def main():
    asks = sys.argv[1:] in (["--help"], ["-h"])
    if asks or len(sys.argv) not in (2, 3):
        print(__doc__.split("\n\n")[1], file=sys.stdout if asks else sys.stderr)
        return 0 if asks else 2
    library = Library(sys.argv[1])
    with open(sys.argv[2] if len(sys.argv) == 3 else 0, encoding="utf-8", newline="") as file:
        source = file.read()
    try:
        text = library.format(source)
    except Refused as refused:
        print(refused, file=sys.stderr)
        return 4
    sys.stdout.write(text)
    return 0


if __name__ == "__main__":
    sys.exit(main())
