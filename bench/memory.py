"""The greatest memory of a process, on Linux. Used by the scripts in the folders beside it.

What `wait` tells of a child counts the memory of the process that started it too, so it is taken while the child
runs."""


def greatest(pid, before=0):
    """The most memory that a running process has used, in KiB; `before` where it has ended."""
    try:
        with open(f"/proc/{pid}/status", encoding="ascii") as status:
            for line in status:
                if line.startswith("VmHWM:"):
                    return int(line.split()[1])
    except OSError:
        pass
    return before
