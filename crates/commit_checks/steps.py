#!/usr/bin/env python3
"""Writes the crate's `stdin` and `stdout`: calls of passes on stores, and what a plain model of two-phase commit says.

    crates/commit_checks/steps.py

The same draws at each run. The model knows no replicas: each of its stores keeps slots with a version, a number and a
holder, and does a command at once.
"""

import pathlib


class Transaction:
    """A transaction of a pass, which changes slots; how it was decided, and at which stores it stands."""

    def __init__(self, pass_, serial, changes):
        self.name = f"{pass_}.{serial}"
        self.changes = changes
        self.stores = sorted({store for (store, _), _, _ in changes})
        self.decided = None


class Model:
    """The stores, how many commands were answered, and how many more may be before the pass stops."""

    def __init__(self, stores):
        self.slots, self.next, self.took, self.serial, self.left = {}, [1] + [0] * (stores - 1), 0, 0, None
        self.slots[(0, 0)] = [1, 0, "0.0", None]

    def slot(self, at):
        return self.slots.setdefault(at, [0, 0, "0.0", None])

    def step(self):
        """Whether one more command is handed on."""
        if self.left == 0:
            return False
        if self.left is not None:
            self.left -= 1
        self.took += 1
        return True

    def fresh(self, store):
        self.step()
        self.next[store] += 1
        return self.next[store] - 1

    def write(self, transaction, store):
        for (at, number), _, value in transaction.changes:
            if at == store:
                slot = self.slot((at, number))
                slot[0], slot[1], slot[2], slot[3] = slot[0] + 1, value, transaction.name, None

    def refused(self, transaction, store):
        """What bars the transaction at a store: a slot that is held, or else one that has another version."""
        mine = [change for change in transaction.changes if change[0][0] == store]
        for at, _, _ in mine:
            holder = self.slot(at)[3]
            if holder is not None:
                return ("held", at, holder)
        for at, version, _ in mine:
            if self.slot(at)[0] != version:
                return ("changed", at, None)
        return None

    def resolve(self, transaction, store):
        if not self.step():
            return False
        for at, _, _ in transaction.changes:
            if at[0] == store and self.slot(at)[3] is transaction:
                if transaction.decided:
                    self.slot(at)[0] += 1
                    self.slot(at)[1:3] = [value for slot, _, value in transaction.changes if slot == at] + [transaction.name]
                self.slot(at)[3] = None
        return True

    def finish(self, transaction):
        """None where the pass stops, else whether it is committed."""
        if not self.step():
            return None
        if transaction.decided is None:
            transaction.decided = False
        for store in transaction.stores:
            if not self.resolve(transaction, store):
                return None
        return transaction.decided

    def cross(self, bar):
        kind, (store, number), holder = bar
        if kind == "changed":
            slot = self.slot((store, number))
            return f"{store}:{number} has version {slot[0]} by {slot[2]}"
        if self.finish(holder) is None:
            return "stopped"
        return f"{store}:{number} is held by {holder.name}"

    def commit(self, pass_, changes):
        self.serial += 1
        return self.run(Transaction(pass_, self.serial, changes))

    def run(self, transaction):
        if len(transaction.stores) == 1:
            if not self.step():
                return "stopped"
            bar = self.refused(transaction, transaction.stores[0])
            if bar:
                return self.cross(bar)
            self.write(transaction, transaction.stores[0])
            return "done"
        bar = self.prepare(transaction)
        if bar == "stopped":
            return bar
        if bar:
            # the version that is told is the one at the answer: what is ended next changes no slot of the bar
            return "stopped" if self.finish(transaction) is None else self.cross(bar)
        committed = self.conclude(transaction)
        if committed is None:
            return "stopped"
        assert committed
        return "done"

    def prepare(self, transaction):
        """None where all parts are prepared, else what bars one."""
        for store in transaction.stores:
            if not self.step():
                return "stopped"
            bar = self.refused(transaction, store)
            if bar:
                return bar
            for at, _, _ in transaction.changes:
                if at[0] == store:
                    self.slot(at)[3] = transaction
        return None

    def conclude(self, transaction):
        """Asks to commit: whether it is committed, since the first decision stands. None where the pass stops before."""
        if not self.step():
            return None
        if transaction.decided is None:
            transaction.decided = True
        for store in transaction.stores:
            if not self.resolve(transaction, store):
                break
        return transaction.decided

    def read(self, at):
        """What a pass sees, and whether it read the slot: a transaction that holds it is finished twice."""
        self.step()
        version, value, _, holder = self.slot(at)
        if holder is None:
            return f"version {version} of {value}", True
        ends = ["committed" if self.finish(holder) else "aborted" for _ in range(2)]
        return f"held by {holder.name}: {ends[0]}, {ends[1]}", False


class Script:
    """Lines, and what is said of them."""

    def __init__(self):
        self.model, self.lines = None, []

    def say(self, line, told):
        self.lines.append((line, told))

    def stores(self, stores, replicas):
        self.model = Model(stores)
        self.say(f"stores {stores} {replicas}", f"{stores} stores of {replicas} replicas")

    def fresh(self, pass_, store):
        self.say(f"fresh {pass_} {store}", f"number {self.model.fresh(store)}")

    def read(self, pass_, store, number):
        self.say(f"read {pass_} {store}:{number}", self.model.read((store, number))[0])

    def commit(self, pass_, *changes, steps=None, refused=False):
        """Changes are (store, number, version, value)."""
        words = " ".join(f"{s}:{n}@{v}={x}" for s, n, v, x in changes)
        line = f"commit {pass_} {'all' if steps is None else steps} {words}"
        if refused:
            self.model.serial += 1
            self.say(line, "may not be committed")
            return
        self.model.left = steps
        self.say(line, self.model.commit(pass_, [((s, n), v, x) for s, n, v, x in changes]))
        self.model.left = None

    def kept(self, store, number):
        version, value = self.model.slot((store, number))[:2]
        self.say(f"kept {store}:{number}", f"version {version} of {value}")

    def entries(self):
        self.say("entries", f"{self.model.took} took, 0 doubted, 0 late")

    # what one commit leaves, on stores of its own

    def stop(self, stores, steps):
        model = Model(stores)
        model.left = steps
        answer = model.run(Transaction(1, 1, [((store, 3), 0, 7) for store in range(stores)]))
        model.left, met, values = None, 0, []
        for store in range(stores):
            while not model.read((store, 3))[1]:
                met += 1
            values.append(model.slot((store, 3))[1])
        found = "all new" if all(values) else "mixed" if any(values) else "all old"
        self.say(f"stop {stores} {steps}", f"{answer}, {found}, met {met}")

    # a transaction that another pass finishes before its own pass asks to commit it

    def overtake(self):
        model = Model(2)
        transaction = Transaction(1, 1, [((store, 3), 0, 7) for store in range(2)])
        assert model.prepare(transaction) is None
        seen = model.read((1, 3))[0]
        ended = "committed" if model.conclude(transaction) else "aborted"
        values = [model.slot((store, 3))[1] for store in range(2)]
        found = "all new" if all(values) else "mixed" if any(values) else "all old"
        self.say("overtake", f"{seen}, then {ended}, {found}")

    # four passes in turns

    def crowd(self, number, times, rounds):
        state = number

        def below(end):
            nonlocal state
            state = (state * 6364136223846793005 + 1442695040888963407) % 2**64
            return (state >> 33) % end

        done, crossed, total = 0, 0, 0
        for _ in range(times):
            slots = [0] * 32
            for _ in range(rounds):
                reads = []
                for _ in range(4):
                    one = below(32)
                    other = (one + 1 + below(31)) % 32
                    reads.append((one, other))
                first, written = below(4), set()
                for turn in range(4):
                    pair = reads[(first + turn) % 4]
                    if written.isdisjoint(pair):
                        written.update(pair)
                        done += 1
                        for slot in pair:
                            slots[slot] += 1
                    else:
                        crossed += 1
            total += sum(slots)
        assert total == 2 * done
        self.say(f"crowd {number} {times} {rounds}", f"{done} done, {crossed} crossed, sum {total}")


def script():
    s = Script()

    # two new slots, at two stores
    s.stores(4, 3)
    s.fresh(0, 0)
    s.fresh(0, 1)
    s.commit(0, (0, 1, 0, 5), (1, 0, 0, 6))
    s.kept(0, 1)
    s.kept(1, 0)
    s.entries()

    # a pass stops where it has prepared both; another one reads, and finishes it
    s.stores(4, 3)
    s.fresh(0, 0)
    s.fresh(0, 1)
    s.commit(0, (0, 1, 0, 5), (1, 0, 0, 6), steps=2)
    s.entries()
    s.read(1, 0, 1)
    s.read(1, 0, 1)
    s.read(1, 1, 0)
    s.kept(0, 1)
    s.kept(1, 0)
    s.entries()

    # what a pass has not read it may not commit; what it has read may have changed
    s.stores(4, 3)
    s.commit(1, (2, 4, 0, 9))
    s.commit(2, (2, 4, 1, 9), refused=True)
    s.read(2, 2, 4)
    s.read(3, 2, 4)
    s.commit(2, (2, 4, 1, 10), (3, 0, 0, 11))
    s.commit(3, (2, 4, 1, 12))
    s.commit(3, (0, 3, 0, 12), (2, 4, 1, 12))
    s.commit(3, (3, 0, 0, 12))
    for store, number in [(0, 3), (2, 4), (3, 0)]:
        s.kept(store, number)
    s.read(3, 0, 3)
    s.entries()

    # two passes that stop in the middle finish one another, each in the commit of its next transaction
    s.stores(4, 5)
    s.commit(1, (0, 3, 0, 1), (1, 3, 0, 1), steps=2)
    s.commit(2, (2, 3, 0, 2), (3, 3, 0, 2), steps=3)
    s.commit(1, (1, 5, 0, 3), (2, 3, 0, 3))
    s.commit(2, (0, 3, 0, 4), (3, 5, 0, 4))
    for store, number in [(0, 3), (1, 3), (2, 3), (3, 3), (1, 5), (3, 5)]:
        s.kept(store, number)
    s.entries()
    s.read(1, 2, 3)
    s.read(2, 0, 3)
    s.commit(1, (1, 5, 0, 3), (2, 3, 1, 3))
    s.commit(2, (0, 3, 0, 4), (3, 5, 0, 4))
    for store, number in [(0, 3), (2, 3), (1, 5), (3, 5)]:
        s.kept(store, number)
    s.entries()

    # a transaction that was decided, and ended at none of its parts, or at one, is met at the others
    for steps in [4, 5]:
        s.stores(3, 3)
        s.commit(1, (0, 3, 0, 1), (1, 3, 0, 2), (2, 3, 0, 3), steps=steps)
        s.read(2, 2, 3)
        s.read(2, 2, 3)
        s.read(2, 0, 3)
        s.read(2, 1, 3)
        s.entries()

    # a commit stops after each number of commands
    for stores in [1, 2, 3]:
        for steps in range(2 * stores + 3):
            s.stop(stores, steps)

    # the home was asked to abort before it is asked to commit
    s.overtake()

    # Messages are lost, so many in a row, from each place on. A command is in doubt only where a majority of a store's three
    # replicas had a bad fate, and it is tried eight times: a commit that loses less than 16 is done. Where more are lost
    # than it tries, it is in doubt: then all is old, or all is new where the decision takes effect late. Past its end, and
    # where only parts were still to be ended, it is done.
    for lost in [1, 3, 15]:
        s.say(f"lose 60 {lost}", "agree: done")
    s.say("lose 60 100", "agree: done faults-old faults-new")

    # 100 transactions on new stores, so many times
    for number in range(1, 41):
        s.crowd(number, 25, 25)
    return s.lines


if __name__ == "__main__":
    folder = pathlib.Path(__file__).parent
    lines = script()
    (folder / "stdin").write_text("".join(f"{line}\n" for line, _ in lines))
    (folder / "stdout").write_text("".join(f"{told}\n" for _, told in lines))
