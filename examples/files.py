#!/usr/bin/env python3
"""A directory is made, a file is written in it, the directory is listed, and the file is read back.

    examples/files.py calls | bin/fss feed | examples/files.py replies

`calls` writes the records of the calls, and `replies` reads those of the replies and says what they tell."""
import struct
import sys

import nfs3

# What the files that are made get as their numbers.
DOCS, HELLO = 16, 32

CALLS = [
    ("MKDIR docs", nfs3.mkdir(1, "docs")),
    ("CREATE docs/hello", nfs3.create(DOCS, "hello")),
    ("WRITE docs/hello", nfs3.write(HELLO, 0, b"hello, world\n")),
    ("READDIR docs", nfs3.readdir(DOCS)),
    ("READ docs/hello", nfs3.read(HELLO, 0, 100)),
    ("LOOKUP docs/other", nfs3.lookup(DOCS, "other")),
]

ATTRIBUTES = 4 + 84


def names(result):
    """The names that READDIR tells."""
    at = ATTRIBUTES + 8
    while struct.unpack_from(">I", result, at)[0]:
        (length,) = struct.unpack_from(">I", result, at + 12)
        yield result[at + 16:at + 16 + length].decode()
        at += 16 + length + -length % 4 + 8


def told(procedure, result):
    """What a result of status OK tells, in words."""
    if procedure == nfs3.READDIR:
        return " ".join(names(result))
    if procedure == nfs3.READ:
        (length,) = struct.unpack_from(">I", result, ATTRIBUTES + 8)
        return repr(result[ATTRIBUTES + 12:ATTRIBUTES + 12 + length])
    if procedure == nfs3.WRITE:
        count = struct.unpack_from(">I", result, len(result) - 16)[0]
        return f"{count} bytes"
    if procedure in (nfs3.CREATE, nfs3.MKDIR):
        return f"file {struct.unpack_from('>Q', result, 24)[0]}"
    return ""


def main():
    if sys.argv[1:] == ["calls"]:
        for xid, (_, call) in enumerate(CALLS):
            sys.stdout.buffer.write(nfs3.record(xid, call))
    elif sys.argv[1:] == ["replies"]:
        for xid, status, result in nfs3.results(sys.stdin.buffer):
            words, (procedure, _) = CALLS[xid]
            print(f"{words}: {told(procedure, result) if status == 0 else f'status {status}'}")
    else:
        sys.exit("usage: files.py calls | files.py replies")


main()
