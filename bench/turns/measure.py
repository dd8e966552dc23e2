"""Times the turnstile and the small server of `worker_demo`, beside the C program of this folder. Called by `run`."""
import socket
import subprocess
import sys
import time


def turns(program, workers, each, micros):
    """Turns a second, by the clock on the wall, less the time of a run with no turn."""
    def wall(count):
        start = time.monotonic()
        words = [program, "turns", workers, count, 1000 * micros]
        out = subprocess.run([str(word) for word in words], stdout=subprocess.PIPE, text=True, check=True).stdout
        if out.strip() != f"turns {workers * count}":
            sys.exit(f"turns {workers}: {out}")
        return time.monotonic() - start
    return workers * each / max(wall(each) - wall(0), 1e-9)


def free_port():
    with socket.socket() as one:
        one.bind(("127.0.0.1", 0))
        return one.getsockname()[1]


def calls(server, load, port, connections, in_flight, each):
    """Calls a second of one run of the load program at a server, which ends by itself."""
    words = [load, "ask", "127.0.0.1", port, connections, in_flight, each]
    with subprocess.Popen([str(word) for word in server], stdout=subprocess.DEVNULL) as process:
        out = subprocess.run([str(word) for word in words], stdout=subprocess.PIPE, text=True, check=True).stdout
        if process.wait() != 0:
            sys.exit(f"{server}: status {process.returncode}")
    return float(out.split()[2])


def main():
    program, load, all_turns, all_calls, rounds = sys.argv[1], sys.argv[2], *map(int, sys.argv[3:6])
    for micros in (0, 1):
        for workers in (1, 2, 4, 8):
            best = max(turns(program, workers, all_turns // workers, micros) for _ in range(rounds))
            print(f"{workers} workers, {micros} us inside: {best:,.0f} turns a second, {1e9 / best:,.0f} ns a turn")
    for connections, in_flight in ((1, 1), (8, 8)):
        each, served, echoed = all_calls // connections, 0.0, 0.0
        for _ in range(rounds):
            port = free_port()
            server = [program, "serve", connections, connections, f"127.0.0.1:{port}"]
            served = max(served, calls(server, load, port, connections, in_flight, each))
            port = free_port()
            echoed = max(echoed, calls([load, "echo", port, connections], load, port, connections, in_flight, each))
        print(f"{connections} connections, {in_flight} in flight: {served:,.0f} calls a second, "
              f"the echo {echoed:,.0f}, ratio {served / echoed:.2f}")


main()
