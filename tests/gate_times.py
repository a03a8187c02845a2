#!/usr/bin/env python3
"""tests/gate_times.py COMMAND WORD..

Runs a command, the gate as a rule, and prints after its output what the prover took by crate and task: minutes of a processor,
minutes from the first process to the last, and the most memory at one time. Only processes that this command began are counted, whatever else
runs on the machine. It looks at them once a second, so the last second of each is missing. The exit status is the command's.

All tasks but the proofs of the crates that wait for one another get a lower priority, so that these aren't kept waiting for a processor too.
"""
import collections
import os
import subprocess
import sys
import threading
import time

TICKS = os.sysconf("SC_CLK_TCK")
PAGE = os.sysconf("SC_PAGE_SIZE")
# The crates that have to be proved one after the other. Nothing can be done sooner than they are, and most crates wait for the last of them.
CHAIN = ["nd_shape_and_slice", "nd_layout", "nd_elements", "nd_array_core"]
# What is added to the niceness of every other task.
GIVES_WAY = 10


def words_of(process):
    """Returns the words that a process was started with, or none where it has ended."""
    try:
        with open(f"/proc/{process}/cmdline", "rb") as it:
            return it.read().decode(errors="replace").split("\0")
    except OSError:
        return []


def task_of(process):
    """Returns the crate and the task that a process of the prover works on, if it does."""
    words = words_of(process)
    if not words or os.path.basename(words[0]) != "rattle" or "--crate-name" not in words:
        return None
    crate = words[words.index("--crate-name") + 1]
    try:
        folder = os.readlink(f"/proc/{process}/cwd")
    except OSError:
        return None
    if "rt-edit" in folder:
        return crate, "edits"
    return crate, "tests" if "--test" in words else "proof"


def stat_of(process):
    """Returns the fields of /proc/N/stat after the name, from the state on, or none where the process has ended."""
    try:
        with open(f"/proc/{process}/stat") as it:
            return it.read().rpartition(")")[2].split()
    except OSError:
        return []


def begun_by(top, stats):
    """Returns the processes that descend from one."""
    children, found, left = collections.defaultdict(list), set(), [top]
    for process, stat in stats.items():
        children[stat[1]].append(process)
    while left:
        process = left.pop()
        found.add(process)
        left += children[process]
    return found


def give_way(process):
    """Lowers the priority of a process: that of each of its threads, of which threads begun later take theirs."""
    try:
        for thread in os.listdir(f"/proc/{process}/task"):
            os.setpriority(os.PRIO_PROCESS, int(thread), GIVES_WAY)
    except OSError:
        pass  # It has ended.


def look(top, seen, memory):
    """Adds what the prover's processes below one have taken so far. New ones of all other tasks give way to the proofs of the chain."""
    now, held = time.monotonic(), collections.Counter()
    stats = {it: stat for it in filter(str.isdigit, os.listdir("/proc")) if (stat := stat_of(it))}
    for process in begun_by(top, stats):
        task = process in stats and task_of(process)
        if not task:
            continue
        stat = stats[process]
        key = process, stat[19]
        took = (int(stat[11]) + int(stat[12])) / TICKS
        if key not in seen and task not in [(crate, "proof") for crate in CHAIN]:
            give_way(process)
        first = seen.get(key, (task, took, now, now))[2]
        seen[key] = task, took, first, now
        held[task] += int(stat[21]) * PAGE
    for task, size in held.items():
        memory[task] = max(memory[task], size)
    memory["all"] = max(memory["all"], sum(held.values()))


def show(seen, memory, whole):
    """Prints the table, the longest task first."""
    took, first, last = collections.Counter(), {}, {}
    for task, seconds, begun, ended in seen.values():
        took[task] += seconds
        first[task] = min(first.get(task, begun), begun)
        last[task] = max(last.get(task, ended), ended)
    print("minutes of a processor, minutes, GB: by crate and task")
    for task, seconds in took.most_common():
        print(f"{seconds / 60:6.1f} {(last[task] - first[task]) / 60:6.1f} {memory[task] / 1e9:5.1f}  {' '.join(task)}")
    print(f"{sum(took.values()) / 60:6.1f} {whole / 60:6.1f} {memory['all'] / 1e9:5.1f}  in all", flush=True)


def main():
    seen, memory, ended = {}, collections.Counter(), threading.Event()
    begun = time.monotonic()
    command = subprocess.Popen(sys.argv[1:])

    def watch():
        while not ended.wait(1):
            look(str(command.pid), seen, memory)

    watcher = threading.Thread(target=watch, daemon=True)
    watcher.start()
    status = command.wait()
    ended.set()
    watcher.join()
    show(seen, memory, time.monotonic() - begun)
    return status if status >= 0 else 128 - status


if __name__ == "__main__":
    sys.exit(main())
