#!/usr/bin/env python3
"""Writes the crate's `stdin` and `stdout` from a folder of vectors, which another program computed.

    crates/conformance/vectors.py FOLDER

The folder has `index.tsv`, with a row for each vector (name, words, status, bytes_in, bytes_out, note), and for each
the input NAME.in and the output NAME.out. What is wanted is taken from these files, and never from the program; the line
on the error sink is the one that the README's table of statuses has. Words that are no command are listed below.
Each vector is run at two sizes of a piece, since no answer depends on the pieces in which the input comes. Inputs that
fit into one take are also taken a byte at a time, longer ones seven bytes at a time. The longest outputs are wanted
once, at the small size, since what a program of the gate prints has to stay below a mebibyte.
"""

import csv
import pathlib
import sys

# The vectors that are not run, by the reason.
LEFT_OUT = {
    "shapes are not read yet: words behind `feed` are a faulty command line, status 1": [
        "bad-shape-17-stores",
        "bad-shape-4-replicas",
        "widest-shape",
    ],
}

# Which takes and which puts fail, from the first: a byte 1 for each that does.
FAULTS = {
    "source-fails-at-first-take": ("01", ""),
    "source-fails-at-second-take": ("0001", ""),
    "sink-fails-at-first-put": ("", "01"),
}

# The vectors whose input has to come whole in the first take.
WHOLE = ["source-fails-at-second-take"]

# The line on the error sink, by the status.
USAGE = (
    "fss: usage: fss feed [STORES REPLICAS] | fss work NUMBER CALLS [STORES REPLICAS LOST ROUGH]"
    " | fss serve ADDRESS WORKERS CONNECTIONS STORES REPLICAS"
)
LINES = {
    0: "",
    1: USAGE,
    2: "fss: input failed",
    3: "fss: output failed",
    4: "fss: input ended inside a record",
    5: "fss: record too long",
    6: "fss: bad record",
}

# Words that are no command, at which nothing is read.
NO_COMMANDS = [
    "", "help", "--help", "-h", "feed --help", "feed 4", "feed -1 3", "feed 4 3", "feed -- 4 3", "feed -- --", "-- feed",
    "Feed", "feeds", "serve", "work 1 4", "work 1 +4", "work 1 16385", "serve 127.0.0.1:2049 1 1 4 3",
]

# Words of the command that there is, over empty input.
COMMANDS = ["feed", "feed --"]

# A peer that sends each of its three calls of NULL once it has the whole reply, of 28 bytes, to the one before.
PEER = ("peer\n", f"peer\t0\t{3 * 28}\n")

# The most bytes of one take: as many as the service asks for, one for inputs up to that size, and seven for others.
LARGE, ONE, FEW = 4096, 1, 7


# Outputs of more bytes are wanted once.
LONG = 30_000


def check(holds, why):
    """Ends the script with a word of why, unless it holds."""
    if not holds:
        sys.exit(f"vectors.py: {why}")


def read_file(folder, name, size):
    """The bytes of a file, which has as many as the index says."""
    content = (folder / name).read_bytes()
    check(len(content) == int(size), f"{name} has {len(content)} bytes, and the index says {size}")
    return content


def cuts(name, content, wanted):
    """The sizes of a piece at which a vector is run."""
    if name in WHOLE:
        return [LARGE]
    small = ONE if len(content) <= LARGE else FEW
    return [small] if len(wanted) > LONG else [LARGE, small]


def cases(folder, row):
    """The lines of a vector: what the program reads, and what it has to write."""
    name, words, status = row["name"], row["words"], int(row["status"])
    content = read_file(folder, f"{name}.in", row["bytes_in"])
    wanted = read_file(folder, f"{name}.out", row["bytes_out"])
    takes, puts = FAULTS.get(name, ("", ""))
    for cut in cuts(name, content, wanted):
        case = f"{name}/{cut}"
        yield (
            f"{case}\t{words}\t{cut}\t{takes}\t{puts}\t{content.hex()}\n",
            f"{case}\t{status}\t{wanted.hex()}\t{LINES[status]}\n",
        )


def refused(words):
    """The line of words that are no command, over an input of one record, and what has to be written."""
    return f"words/{words}\t{words}\t{LARGE}\t\t\t80000000\n", f"words/{words}\t1\t\t{USAGE}\n"


def main():
    check(len(sys.argv) == 2, "give the folder of the vectors")
    folder = pathlib.Path(sys.argv[1])
    with open(folder / "index.tsv", encoding="utf-8", newline="") as index:
        rows = list(csv.DictReader(index, delimiter="\t", quoting=csv.QUOTE_NONE))
    names = [row["name"] for row in rows]
    left_out = [name for some in LEFT_OUT.values() for name in some]
    for name in [*left_out, *FAULTS, *WHOLE]:
        check(name in names, f"the index has no {name}")
    lines = [line for row in rows if row["name"] not in left_out for line in cases(folder, row)]
    lines += [refused(words) for words in NO_COMMANDS]
    lines += [(f"words/{words}\t{words}\t{LARGE}\t\t\t\n", f"words/{words}\t0\t\t\n") for words in COMMANDS]
    lines.append(PEER)
    crate = pathlib.Path(__file__).resolve().parent
    for file, column in [("stdin", 0), ("stdout", 1)]:
        (crate / file).write_text("".join(line[column] for line in lines), encoding="utf-8", newline="\n")
    print(f"{len(rows) - len(left_out)} of {len(rows)} vectors are run, in {len(lines)} cases. Left out:")
    for reason, some in LEFT_OUT.items():
        print(f"  {len(some)}: {reason}")


main()
