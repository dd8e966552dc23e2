#!/usr/bin/env python3
"""Writes the crate's `stdin` and `stdout`: steps on a B-tree, and what a sorted list in the tree's place says to them.

    crates/page_checks/steps.py

The same draws at each run. Of the pages' shapes it knows three: a new tree is one leaf; five records of the greatest
size fill a leaf, and a sixth divides it; and a page has 4 bytes, and 20 more for a record beside its key and its value.
"""

import bisect
import pathlib

NEVER = 2**64 - 1
LARGEST_KEY, LARGEST_VALUE = 264, 1200
PAGE, MOST = 8192, 400


class Model:
    """A sorted list of keys and births, and their deaths and lengths; and the lines so far."""

    def __init__(self):
        self.places, self.rest, self.lines = [], {}, []

    def say(self, word, key="", birth=0, death=0, length=0, *, told):
        self.lines.append((f"{word} {key} {birth} {death} {length}", told))

    def new(self):
        self.places, self.rest = [], {}
        self.say("new", told="new")

    def insert(self, key, birth, death, length):
        place = (key.encode(), birth)
        if place in self.rest:
            self.say("insert", key, birth, death, length, told="the pages are not those of a tree")
            return
        bisect.insort(self.places, place)
        self.rest[place] = (death, length)
        self.say("insert", key, birth, death, length, told="inserted")

    def change(self, word, key, birth, death=0, length=0):
        place = (key.encode(), birth)
        there = place in self.rest
        if there and word == "remove":
            self.places.remove(place)
            del self.rest[place]
        elif there:
            self.rest[place] = (death, self.rest[place][1] if word == "end" else length)
        self.say(word, key, birth, death, length, told="true" if there else "false")

    def find(self, word, key, birth):
        place = (key.encode(), birth)
        at = {"seek": bisect.bisect_left, "next": bisect.bisect_right, "back": bisect.bisect_right}[word](self.places, place)
        at -= word == "back"
        told = "none"
        if 0 <= at < len(self.places):
            found = self.places[at]
            death, length = self.rest[found]
            told = f"{found[0].decode()} {found[1]} {death} {length}"
        self.say(word, key, birth, told=told)


def draws(state):
    """Numbers below 2^15."""
    while True:
        state = (1103515245 * state + 12345) % 2**31
        yield state >> 16


def many_come_in_and_every_other_one_goes(m):
    m.new()
    for n in range(2000):
        m.insert(f"{n:04}", 1, NEVER, 100)
    for n in range(1, 2000, 2):
        m.change("remove", f"{n:04}", 1)
        m.change("remove", f"{n:04}", 1)
    m.find("seek", "0001", 0)
    m.find("next", "1998", 1)
    m.find("back", "1999", 7)
    m.change("replace", "0002", 1, NEVER, LARGEST_VALUE)
    m.change("end", "0002", 1, 7)
    m.change("end", "0003", 1, 7)
    m.change("replace", "0003", 1, NEVER, 0)
    m.insert("0002", 1, NEVER, 5)
    m.insert("0002", 0, NEVER, 5)
    for n in range(0, 2000, 50):
        m.find("back", f"{n:04}", 2)


def largest_records_divide_a_page(m):
    m.new()
    m.say("root", told="level 0 cells 0")
    for n in range(6):
        m.insert(chr(97 + n) * LARGEST_KEY, 1, NEVER, LARGEST_VALUE)
        m.say("root", told=f"level 0 cells {n + 1}" if n < 5 else "level 1 cells 2")


def a_leaf_takes_what_has_room(m):
    for key, length in [(LARGEST_KEY, LARGEST_VALUE), (LARGEST_KEY, 0), (9, 13), (1, 0)]:
        cells = (PAGE - 4) // (20 + key + length)
        told = f"cells {cells}, too big for a page" if cells < MOST else f"cells {MOST}"
        m.say("fill", "k" * key, 0, NEVER, length, told=told)


def versions_of_a_key_are_told_apart(m):
    m.new()
    m.find("seek", "", 0)
    m.find("back", "z", NEVER)
    for birth in range(1, 400, 3):
        m.insert("key", birth, birth + 3, birth % 50)
    m.change("end", "key", 397, NEVER)
    for birth in range(0, 410, 7):
        for word in ["seek", "next", "back"]:
            m.find(word, "key", birth)
    for birth in range(1, 400, 6):
        m.change("remove", "key", birth)
    for birth in range(0, 410, 7):
        m.find("back", "key", birth)


def records_come_and_go_in_any_order(m):
    m.new()
    numbers = draws(1)
    for _ in range(4000):
        n = next(numbers) % 3000
        key, birth = f"{n:05}" * (1 + n % 7 * (n % 2)), n % 3
        length = LARGEST_VALUE if n % 5 == 0 else n % 90
        turn = next(numbers) % 8
        if (key.encode(), birth) not in m.rest:
            m.insert(key, birth, NEVER, length)
        elif turn < 3:
            m.change("remove", key, birth)
        elif turn < 5:
            m.change("replace", key, birth, n, next(numbers) % (LARGEST_VALUE + 1))
        elif turn < 6:
            m.change("end", key, birth, n)
        else:
            m.find(["seek", "next"][turn % 2], key, next(numbers) % 4)
    m.find("seek", "", 0)
    for key, birth in list(m.places):
        m.find("next", key.decode(), birth)


def main():
    m = Model()
    for part in [
        many_come_in_and_every_other_one_goes,
        largest_records_divide_a_page,
        a_leaf_takes_what_has_room,
        versions_of_a_key_are_told_apart,
        records_come_and_go_in_any_order,
    ]:
        part(m)
    crate = pathlib.Path(__file__).resolve().parent
    for file, column in [("stdin", 0), ("stdout", 1)]:
        (crate / file).write_text("".join(f"{line[column]}\n" for line in m.lines), encoding="utf-8", newline="\n")
    print(f"{len(m.lines)} steps, {len(m.places)} records at the end")


main()
