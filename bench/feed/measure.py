"""Times `fss feed` and its yardstick on NULL records through pipes, and prints records a second of each,
their ratio, and the program's greatest memory. Called by `run`."""
import pathlib
import subprocess
import sys
import threading
import time

sys.path.insert(0, str(pathlib.Path(__file__).resolve().parents[1]))

import memory

NULL = bytes.fromhex("80000028 00000001 00000000 00000002 000186a3 00000003" + " 00000000" * 5)
REPLY = bytes.fromhex("80000018 00000001 00000001" + " 00000000" * 4)


def seconds(command, records):
    """One run over pipes: its time, and its greatest memory in KiB. The replies are compared."""
    began = time.perf_counter()
    process = subprocess.Popen(command, stdin=subprocess.PIPE, stdout=subprocess.PIPE)

    def write():
        chunk = NULL * 1000
        for _ in range(records // 1000):
            process.stdin.write(chunk)
        process.stdin.close()

    writer = threading.Thread(target=write)
    writer.start()
    got = 0
    wanted = REPLY * 4096
    while True:
        part = process.stdout.read(1 << 16)
        if not part:
            break
        at = got % len(REPLY)
        if part != wanted[at:at + len(part)]:
            sys.exit("a reply differs")
        got += len(part)
    writer.join()
    status = process.wait()
    spent = time.perf_counter() - began
    if status != 0 or got != records // 1000 * 1000 * len(REPLY):
        sys.exit(f"{command}: status {status}, {got} bytes")
    return spent


def most_memory(command, records):
    """The greatest memory of one run, in KiB."""
    process = subprocess.Popen(command, stdin=subprocess.PIPE, stdout=subprocess.DEVNULL)
    chunk = NULL * 1000
    for _ in range(records // 1000):
        process.stdin.write(chunk)
    most = memory.greatest(process.pid)
    process.stdin.close()
    if process.wait() != 0:
        sys.exit(f"{command}: status {process.returncode}")
    return most


def main():
    program, yardstick, records, rounds = sys.argv[1], sys.argv[2], int(sys.argv[3]), int(sys.argv[4])
    best = {}
    for _ in range(rounds):
        for name, command in (("fss", [program, "feed"]), ("yardstick", [yardstick])):
            spent = seconds(command, records)
            best[name] = min(spent, best.get(name, spent))
    for name, spent in best.items():
        print(f"{name}: {records / spent:,.0f} records a second")
    print(f"ratio: {best['yardstick'] / best['fss']:.2f}")
    few, all_of_them = most_memory([program, "feed"], records // 10), most_memory([program, "feed"], records)
    print(f"memory: {few} KiB for {records // 10:,} records, {all_of_them} KiB for {records:,}")


main()
