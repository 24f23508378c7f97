#!/usr/bin/env python3
"""Times the pool and its allocators, crates/bench, against a peer in plain Rust, tools/peer.

    python3 tools/bench.py [--runs N] [--only NAME]

Builds both, and runs each workload of crates/bench on few and on many blocks. A program prints what its calls came to and
waits for a line, four times a round: twice before its setting up, after it, and after the calls that are timed. In between
the system's count of its time on a processor is read, so that other work on the machine and the start of the program
do not count. The lines of both must be the same. What is printed is the time of a call, in ns: of each run the median of
the rounds, less what printing and waiting takes, and of several runs the best.
"""
import argparse
import os
import re
import statistics
import subprocess
import sys

TOP = os.path.dirname(os.path.dirname(os.path.abspath(__file__)))
BENCH = f"{TOP}/crates/bench"
PEER = f"{TOP}/tools/peer"
OURS = f"{BENCH}/out/bench"
THEIRS = f"{PEER}/target/release/peer"

FEW, MANY = 1_024, 32_768
SETTING_UP, TIMED = 2, 3

# What it is called, the workload, which part of its rounds, few and many blocks, rounds on each.
ROWS = [
    ("any calls, about half of them refused", "any", TIMED, 256, MANY, 20, 20),
    ("a history grown: writes, discards, snapshots", "edits", SETTING_UP, FEW, MANY, 20, 10),
    ("the same, the head numbered above its snapshots", "edits-above", SETTING_UP, FEW, MANY, 20, 10),
    ("edits of the grown head, and reads", "edits", TIMED, FEW, MANY, 20, 10),
    ("unique and used of each dataset", "figures", TIMED, FEW, MANY, 20, 5),
    ("snapshots destroyed, oldest first", "oldest", TIMED, FEW, MANY, 1_000, 10),
    ("snapshots destroyed, newest first", "newest", TIMED, FEW, MANY, 1_000, 10),
    ("the same, the head numbered above them", "newest-above", TIMED, FEW, MANY, 1_000, 10),
    ("snapshots destroyed, scattered", "scattered", TIMED, FEW, MANY, 1_000, 10),
    ("bitmap, full but for one block", "full-bits", TIMED, FEW, MANY, 20, 20),
    ("bitmap, every second block free", "thin-bits", TIMED, FEW, MANY, 20, 20),
    ("range map, full but for one block", "full-ranges", TIMED, FEW, MANY, 20, 20),
    ("range map, every second block free", "thin-ranges", TIMED, FEW, MANY, 20, 3),
]


def build():
    """For the same processors: those that rt builds for."""
    flags = {**os.environ, "RUSTFLAGS": "-C target-cpu=x86-64-v2"}
    subprocess.run(["cargo", "build", "--release", "--quiet"], cwd=PEER, check=True, env=flags)
    subprocess.run(["rt", "run"], cwd=BENCH, check=True, stdin=subprocess.DEVNULL, stdout=subprocess.DEVNULL)


def time_once_asleep(pid):
    """The processor time of a process in ns, once it waits: the system counts it up only then."""
    while open(f"/proc/{pid}/stat").read().rsplit(")", 1)[1].split()[0] != "S":
        pass
    return int(open(f"/proc/{pid}/schedstat").read().split()[0])


def run(program, name, blocks, rounds):
    """The lines that the program prints, and the processor time in ns before each."""
    words = [program, name, str(blocks), str(rounds)]
    lines, times = [], []
    with subprocess.Popen(words, stdin=subprocess.PIPE, stdout=subprocess.PIPE, text=True, bufsize=1) as process:
        process.stdout.readline()
        for line in process.stdout:
            lines.append(line)
            times.append(time_once_asleep(process.pid))
            process.stdin.write("\n")
            process.stdin.flush()
    if process.returncode != 0:
        sys.exit(f"{' '.join(words)}: ended by {process.returncode}")
    return lines, times


def sums(line):
    return [int(n) for n in re.findall(r"\d+", line)]


def measure(program, name, part, blocks, rounds):
    """The lines, and the time of a call in ns."""
    lines, times = run(program, name, blocks, rounds)
    calls = [sums(line)[0] for line in lines]
    rounds = range(0, len(lines) - 3, 4)
    idle = statistics.median(times[i + 1] - times[i] for i in rounds)
    return lines, statistics.median(
        (times[i + part] - times[i + part - 1] - idle) / (calls[i + part] - calls[i + part - 1])
        for i in rounds
    )


def compare(name, part, blocks, rounds, runs):
    """The best times of ours and of the peer, whose lines must be the same."""
    ours, theirs = [], []
    for _ in range(runs):
        lines, time = measure(OURS, name, part, blocks, rounds)
        ours.append(time)
        peers, time = measure(THEIRS, name, part, blocks, rounds)
        theirs.append(time)
        for line, other in zip(lines, peers, strict=True):
            if line != other:
                sys.exit(f"{name} on {blocks} blocks: ours {line}the peer's {other}")
    return min(ours), min(theirs)


def main():
    parser = argparse.ArgumentParser()
    parser.add_argument("--runs", type=int, default=5)
    parser.add_argument("--only", default="")
    words = parser.parse_args()
    build()
    print("| workload | blocks | ours | peer | ratio | blocks | ours | peer | ratio | ours grows |")
    print("|---|--:|--:|--:|--:|--:|--:|--:|--:|--:|")
    for title, name, part, few, many, rounds, more in ROWS:
        if words.only not in name:
            continue
        a, b = compare(name, part, few, rounds, words.runs)
        c, d = compare(name, part, many, more, words.runs)
        print(
            f"| {title} | {few:,} | {a:,.0f} | {b:,.0f} | {a / b:.1f} "
            f"| {many:,} | {c:,.0f} | {d:,.0f} | {c / d:.1f} | {c / a:.1f} |",
            flush=True,
        )


main()
