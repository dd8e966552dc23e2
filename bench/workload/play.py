"""The nine lines of `fss work NUMBER CALLS` in calm weather, computed apart from the program.

    python3 bench/workload/play.py NUMBER CALLS [show]

It keeps a set of files by name and nothing else of a tree. With `show` it prints each call before the lines.
"""

import sys

MODULUS = 1 << 31


class Draws:
    def __init__(self, number):
        self.state = number % MODULUS

    def draw(self):
        self.state = (1103515245 * self.state + 12345) % MODULUS
        return self.state >> 16


class Root:
    """The files in the root by name, each with its size; a handle is the number of a file, and 1 is the root."""

    def __init__(self):
        self.names = {}
        self.sizes = {}
        self.made = 1

    def create(self, name):
        if name not in self.names:
            self.made += 1
            self.names[name] = self.made
            self.sizes[self.made] = 0
        return "OK"

    def remove(self, name):
        if name not in self.names:
            return "NOENT"
        del self.sizes[self.names.pop(name)]
        return "OK"

    def write(self, handle, offset, count):
        if handle == 1:
            return "INVAL"
        if handle not in self.sizes:
            return "STALE"
        self.sizes[handle] = max(self.sizes[handle], offset + count)
        return "OK"

    def look(self, handle, of_root):
        if handle == 1:
            return of_root
        return "OK" if handle in self.sizes else "STALE"


def play(number, calls, tell=lambda *_: None):
    draws, root, known = Draws(number), Root(), {}
    for call in range(1, calls + 1):
        a, b, c = draws.draw(), draws.draw(), draws.draw()
        name = f"f{b % 256}"
        handle = known.get(name, 1)
        kind = a % 8
        if call % 512 == 0:
            what, status = f"MKDIR .snapshot/s{call}", "OK"
        elif kind == 0:
            what, status = "READDIRPLUS", "OK"
        elif kind == 1:
            what, status = f"LOOKUP {name}", "OK" if name in root.names else "NOENT"
            if status == "OK":
                known[name] = root.names[name]
        elif kind in (2, 7):
            what, status = f"WRITE {handle}", root.write(handle, 4096 * (c % 16), 6000)
        elif kind == 3:
            what, status = f"READ {handle}", root.look(handle, "INVAL")
        elif kind == 4:
            what, status = f"GETATTR {handle}", root.look(handle, "OK")
        elif kind == 5:
            what, status = f"REMOVE {name}", root.remove(name)
            if status == "OK":
                known.pop(name, None)
        else:
            what, status = f"CREATE {name}", root.create(name)
            known[name] = root.names[name]
        tell(call, what, status)
    return len(root.names) + 1, sum(root.sizes.values())


def main():
    number, calls = int(sys.argv[1]), int(sys.argv[2])
    nodes, bytes_held = play(number, calls, print if sys.argv[3:] == ["show"] else lambda *_: None)
    counts = [("calls", calls), ("acknowledged", calls), ("serverfault", 0), ("jukebox", 0), ("nomemory", 0)]
    counts += [("stopped", 0), ("history", calls), ("nodes", nodes), ("bytes", bytes_held)]
    for line, count in counts:
        print(line, count)


if __name__ == "__main__":
    main()
