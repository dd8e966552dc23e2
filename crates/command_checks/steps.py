#!/usr/bin/env python3
"""Writes the crate's `stdin` and `stdout`: words, calls, fates, strays and counts, and what a model says of them.

    crates/command_checks/steps.py

Words it reads by its own short reader of the rules; calls and weather it draws by its own generator; and counts are
those of `bench/workload/play.py`, which keeps files by name and nothing else of a tree. The same lines at each run.
"""

import pathlib
import sys

CRATE = pathlib.Path(__file__).resolve().parent
sys.path.insert(0, str(CRATE.parent.parent / "bench" / "workload"))
sys.dont_write_bytecode = True
import play  # noqa: E402

SHORT, LONG = 2**32 - 1, 2**64 - 1
MOST_CALLS, LEAST_ROUGH, MOST_ROUGH = 16_384, 8, 32_768
ROOT, SNAPSHOTS = f"{2**32}.0.1", f"{2**32}.{LONG}.2"


# ---- words


def number(word, most):
    """1 to 20 digits, and at most `most`."""
    if not 1 <= len(word) <= 20 or any(c not in "0123456789" for c in word) or int(word) > most:
        raise ValueError(word)
    return int(word)


def shorts(words):
    return [number(word, SHORT) for word in words]


def feed(values):
    stores, replicas = shorts(values) if values else (4, 3)
    return ["feed", stores, replicas]


def work(values):
    if len(values) == 2:
        values = values + ["4", "3", "0", "0"]
    named, calls, stores, replicas, lost, rough = values
    drawn = number(rough, MOST_ROUGH)
    if 0 < drawn < LEAST_ROUGH:
        raise ValueError(rough)
    return ["work", number(named, LONG), number(calls, MOST_CALLS), *shorts([stores, replicas, lost]), drawn]


def serve(values):
    address, workers, connections, stores, replicas = values
    host, port = address.split(":")
    first, second, third, fourth = host.split(".")
    for part in [first, second, third, fourth]:
        number(part, 255)
    number(port, 65_535)
    return ["serve", address, *shorts([workers, connections, stores, replicas])]


def meaning(words):
    """The first word names a command, and of its values the first `--` is dropped. A wrong count fails to unpack."""
    try:
        name, *values = words
        if "--" in values:
            values.remove("--")
        return " ".join(str(part) for part in {"feed": feed, "work": work, "serve": serve}[name](values))
    except (ValueError, KeyError):
        return "usage"


FEED = """
feed
feed,16,5
feed,17,3
feed,0,0
feed,04,0003
feed,4294967295,4294967295
feed,4294967296,3
feed,4,4294967296
feed,00000000000000000004,3
feed,000000000000000000004,3
feed,18446744073709551620,3
feed,4
feed,4,3,2
feed,4,3,2,1,0,9,8,7
feed,4,3,2,1,0,9,8,7,6
feed, 4,3
feed,4 ,3
feed,4,
feed,,
feed,+4,3
feed,-4,3
feed,4,0x3
feed,4,3.0
feed,4_0,3
feed,4,\u0663
feed,--,4,3
feed,4,--,3
feed,4,3,--
feed,--
feed,--,--
feed,--,--,4,3
feed,--,4,3,--
feed,-,4,3
feed,---,4,3
--,feed
--,feed,4,3
--
-
Feed
feeds
fee
 feed
feed 
fss,feed
help
--help
-h
help,feed
feed,help
feed,--help
feed,-h
feed,--version
feed,--,--help
feed,--values,4,3
feed,--values=4,3
"""

WORK = """
work,1,4
work,0,0
work,18446744073709551615,16384
work,18446744073709551616,4
work,99999999999999999999,4
work,000000000000000000001,4
work,1,16385
work,1,00000000000000016384
work,1,+4
work,-1,4
work, 1,4
work,1
work
work,1,4,4
work,1,4,4,3
work,1,4,4,3,0
work,7,400,4,5,2,0
work,7,400,4,5,6,8
work,7,400,4,5,2,7
work,7,400,4,5,2,1
work,7,400,4,5,2,008
work,7,400,4,5,2,32768
work,7,400,4,5,2,32769
work,7,400,4294967295,4294967295,4294967295,9
work,7,400,4294967296,5,2,0
work,7,400,4,4294967296,2,0
work,7,400,4,5,4294967296,0
work,7,400,4,5,2,0,0
work,--,7,400
work,7,400,--
work,7,--,400,--
work,7,400,4,5,2,0,--
work,7,400,4,5,2,--,0
"""

SERVE = """
serve,127.0.0.1:2049,2,3,4,3
serve,--,127.0.0.1:2049,2,3,4,3
serve,127.0.0.1:2049,2,3,4,3,--
serve,255.255.255.255:65535,1,1,1,3
serve,0.0.0.0:0,1,1,1,3
serve,127.0.0.001:00080,1,1,1,3
serve,127.0.0.256:2049,2,3,4,3
serve,256.0.0.1:2049,2,3,4,3
serve,127.256.0.1:2049,2,3,4,3
serve,127.0.256.1:2049,2,3,4,3
serve,127.0.0.1:65536,2,3,4,3
serve,127.0.0.1,2,3,4,3
serve,127.0.0.1:,2,3,4,3
serve,:2049,2,3,4,3
serve,127.0.0:1,2,3,4,3
serve,127.0.0.1.1:1,2,3,4,3
serve,127.0.0.1:1:1,2,3,4,3
serve,.0.0.1:1,2,3,4,3
serve,127..0.1:1,2,3,4,3
serve,-1.0.0.1:1,2,3,4,3
serve,+1.0.0.1:1,2,3,4,3
serve,127.0.0.1: 1,2,3,4,3
serve, 127.0.0.1:1,2,3,4,3
serve,localhost:1,2,3,4,3
serve,[::1]:1,2,3,4,3
serve,127.0.0.1:2049,4294967295,4294967295,4294967295,0
serve,127.0.0.1:2049,4294967296,3,4,3
serve,127.0.0.1:2049,2,4294967296,4,3
serve,127.0.0.1:2049,2,3,4294967296,3
serve,127.0.0.1:2049,2,3,4,4294967296
serve,127.0.0.1:2049,2,3,4
serve,127.0.0.1:2049,2,3,4,3,0
serve,2,3,4,3,127.0.0.1:2049
serve
"""


def word_steps():
    lines = [line for table in [FEED, WORK, SERVE] for line in table.strip("\n").split("\n")]
    return [("words ", "usage")] + [(f"words {line}", meaning(line.split(","))) for line in lines]


# ---- the workload


def draws(state):
    state %= 2**31
    while True:
        state = (1_103_515_245 * state + 12_345) % 2**31
        yield state // 65_536


def call_text(i, a, b, c):
    """A call whose name nobody knows a handle of: where one is needed it is the root's."""
    name, kind = f"f{b % 256}", a % 8
    if i % 512 == 0:
        return f"MKDIR {SNAPSHOTS} s{i}"
    byte = c % 256
    return [
        f"READDIRPLUS {ROOT} 0 8192 8192",
        f"LOOKUP {ROOT} {name}",
        f"WRITE {ROOT} {4096 * (c % 16)} 6000 {byte} {byte}",
        f"READ {ROOT} 0 32768",
        f"GETATTR {ROOT}",
        f"REMOVE {ROOT} {name}",
        f"CREATE {ROOT} {name} unchecked {0o644}",
        f"WRITE {ROOT} {4096 * (c % 16)} 6000 {byte} {byte}",
    ][kind]


def call_step(named, count):
    drawn = draws(named)
    told = [call_text(i, next(drawn), next(drawn), next(drawn)) for i in range(1, count + 1)]
    return (f"calls {named} {count}", ", ".join(told))


def fate_step(named, lost, rough, count):
    drawn, bad, told = draws(named + 1), [0, 0, 0], []
    for k in range(count):
        replica = k % 2
        fate = "deliver"
        if replica < lost:
            fate = "lose"
        elif rough:
            fate = {0: "lose", 1: "hold", 2: "repeat"}.get(next(drawn) % rough, "deliver")
        bad[replica] += fate in ("lose", "hold")
        told.append(fate)
    return (f"fates {named} {lost} {rough} {count}", " ".join(told + ["bad", *map(str, bad)]))


def stray_step(named, rough, count):
    drawn, told = draws(named + 1), ["comes"]
    for k in range(count):
        comes = k % 3 > 0 and rough > 0 and next(drawn) % 4 == 0
        told.append("0" if comes else "none")
    return (f"strays {named} {rough} {count}", " ".join(told))


def play_step(named, calls):
    nodes, held = play.play(named, calls)
    return (f"play {named} {calls}", f"nodes {nodes} bytes {held}")


def workload_steps():
    steps = [call_step(*row) for row in [(1, 0), (1, 4), (1, 600), (0, 9), (2**31, 9), (LONG, 40), (7, 513)]]
    steps += [fate_step(*row) for row in [(1, 1, 8, 16), (1, 0, 8, 40), (1, 0, 0, 6), (7, 1, 0, 6), (7, 2, 9, 6)]]
    steps += [fate_step(*row) for row in [(LONG, 0, 32_768, 4), (LONG, 0, 8, 60), (2**31 - 1, 0, 8, 12)]]
    steps += [stray_step(*row) for row in [(1, 8, 30), (1, 0, 9), (LONG, 9, 30)]]
    counted = [(1, 0), (1, 4), (1, 100), (7, 400), (1, 600), (2**31, 50), (LONG, 300), (12_345, 1_100), (1, 4_000)]
    return steps + [play_step(*row) for row in counted]


def main():
    first = [16838, 5758, 10113, 17515, 31051, 5627, 23010, 7419, 16212, 4086, 2749, 12767]
    assert [draw for draw, _ in zip(draws(1), first)] == first
    steps = word_steps() + workload_steps()
    for file, column in [("stdin", 0), ("stdout", 1)]:
        (CRATE / file).write_text("".join(f"{step[column]}\n" for step in steps), encoding="utf-8", newline="\n")
    print(f"{len(steps)} steps")


main()
