#!/usr/bin/env python3
"""Runs random scripts through the console and through the outside model, and compares what they print, byte for byte.

    tools/outside/histories.py --scripts N --seed S [--console PATH] [--check]
    tools/outside/histories.py --store --seed S

Each script is run over the bitmap and over the range map. At the first difference it drops lines as long as a
difference is left, prints the script, what was wanted and what was printed, and stops with status 1. Else it tells at
the end how much of what it met. With --check the model also holds itself against its rules, which takes longer.

The console is the program that (cd crates/console && rt run < stdin) leaves, unless PATH names another.

--store runs no console: it writes a few scripts, chosen for the variety of their answers, into crates/cases, and the
model's answers to all the scripts there.
"""
import argparse
import collections
import itertools
import pathlib
import random
import subprocess
import sys

sys.dont_write_bytecode = True
import pool

ROOT = pathlib.Path(__file__).resolve().parents[2]
CONSOLE = ROOT / "crates/console/out/console"
CASES = ROOT / "crates/cases"

# How often each letter is drawn, in one mood.
MOODS = {
    "plain": dict(c=2, w=8, x=4, s=3, k=2, d=3, p=3, u=2, a=2),
    "filling": dict(c=1, w=35, s=4, p=1, u=1, a=1),
    "building": dict(w=1),
    "keeping": dict(s=1),
    "cloning": dict(w=1, x=30, s=1, k=4, u=1, a=1),
    "crowding": dict(c=8, w=2, s=7, k=7, d=1, a=1),
    "tearing": dict(w=2, x=4, d=9, p=1, u=3, a=1),
    "asking": dict(w=1, s=1, d=1, p=6, u=5, a=4),
}

# The moods of a script in their order, each with about how many lines.
PLANS = {
    "short": [("plain", 30)],
    "mixed": [("plain", 20), ("filling", 25), ("plain", 30), ("tearing", 15), ("plain", 30), ("asking", 10)],
    "full": [("filling", 110), ("tearing", 12), ("filling", 40), ("asking", 10), ("plain", 30)],
    "dead": [("building", 24), ("keeping", 2), ("cloning", 250), ("tearing", 10), ("cloning", 40), ("plain", 20)],
    "crowded": [("crowding", 95), ("plain", 20), ("tearing", 15), ("crowding", 25), ("asking", 10)],
    "long": [("filling", 40), ("cloning", 60), ("tearing", 40), ("plain", 60), ("crowding", 30), ("tearing", 30)] * 3,
}


class Author:
    """Writes one script, beside a console that has read what is written so far."""

    def __init__(self, dice, plan=None):
        self.dice = dice
        self.plan = plan or dice.choices(list(PLANS), [6, 6, 2, 2, 2, 1])[0]
        self.console = pool.Console(b"b")
        self.datasets = self.console.pool.datasets
        self.numbers = dice.choice([4, 12, 40, 120, 999])
        self.heights = [dice.randint(1, 4) for _ in range(dice.randint(1, 4))]
        self.places = [dice.randrange(8**4) for _ in range(dice.choice([2, 6, 20, 60]))]
        self.wild = dice.choice([0, 0.02, 0.1, 0.3])
        self.broken = dice.choice([0, 0, 0.02, 0.1, 0.5])
        if self.plan in ("full", "dead", "crowded"):
            self.numbers = 120
            self.wild, self.broken = self.wild / 10, self.broken / 10
        if self.plan in ("full", "dead"):
            self.heights = [dice.randint(3, 4), 4]
        if self.plan == "dead":
            self.places = [512 * n + dice.randrange(512) for n in range(8)]

    def script(self):
        """The lines after the first."""
        for mood, count in PLANS[self.plan]:
            for _ in range(self.dice.randint(count // 2, count * 3 // 2)):
                yield self.line(mood)
        if self.dice.random() < 0.5:
            yield from self.farewell()

    def farewell(self):
        """Asks every dataset for its figures and for some positions."""
        for number, dataset in self.datasets.items():
            for letter in "ua" if dataset.is_head() else "u":
                yield b"%s %d" % (letter.encode(), number)
            for place in self.dice.choices(self.places, k=4):
                yield b"p %d %d" % (number, place % 8**dataset.height)

    def line(self, mood):
        letters = MOODS[mood]
        line = self.form(self.dice.choices(list(letters), letters.values())[0])
        if self.dice.random() < self.broken:
            line = self.breach(line)
        try:
            self.console.answer(line)
        except pool.Refused:
            pass
        return line

    def form(self, letter):
        heads = [n for n, d in self.datasets.items() if d.is_head()]
        snapshots = [n for n, d in self.datasets.items() if not d.is_head()]
        if letter == "k" and not snapshots and self.tame():
            letter = "s"
        if not heads and self.tame():
            letter = "c"
        if letter == "c":
            words = [self.new(), self.dice.choice(self.heights) if self.tame() else self.dice.choice([0, 5, 99999])]
        elif letter == "s":
            words = [self.old(heads), self.new()]
        elif letter == "k":
            words = [self.old(snapshots), self.new()]
        elif letter == "a":
            words = [self.old(heads)]
        elif letter in "du":
            words = [self.old(list(self.datasets))]
        else:
            number = self.old(heads if letter in "wx" else list(self.datasets))
            words = [number, self.position(number)]
        line = " ".join([letter, *map(str, words)]).encode()
        return line + b" " + self.text() if letter == "w" else line

    def tame(self):
        return self.dice.random() >= self.wild

    def old(self, numbers):
        if self.tame():
            return self.dice.choice(numbers or [*self.datasets] or [1])
        return self.dice.choice([self.dice.choice([0, 1000, 99999]), self.dice.randint(1, 999), *self.datasets])

    def new(self):
        free = [n for n in range(1, self.numbers + 1) if n not in self.datasets] if self.numbers < 200 else []
        if free and self.tame():
            return self.dice.choice(free)
        return self.dice.randint(1, self.numbers) if self.tame() else self.dice.choice([0, 1000, *self.datasets])

    def position(self, number):
        height = self.datasets[number].height if number in self.datasets else 1
        if self.tame():
            return self.dice.choice(self.places) % 8**height
        return self.dice.choice([0, 8**height - 1, 8**height, 4096, 99999, self.dice.randrange(8**height)])

    def text(self, most=64):
        length = self.dice.choice([1, 2, min(8, most), most])
        return bytes(self.dice.randint(32, 126) for _ in range(length))

    def breach(self, line):
        """A line that is likely to break a rule of lines, words, numbers or texts."""
        words = line.split(b" ")
        at = self.dice.randrange(len(line) + 1)
        odd = bytes([self.dice.choice([0, 9, 13, 31, 32, 45, 47, 48, 58, 127, 128, 255, self.dice.randrange(256)])])
        broken = self.dice.choice([
            b"",
            line[:1],
            line[:2],
            line + b" ",
            line.replace(b" ", b"  ", 1),
            b" " + line,
            line.upper(),
            bytes([self.dice.randrange(97, 123)]) + line[1:],
            line[:at] + odd + line[at:],
            line[:at] + odd + line[at + 1 :],
            line[:at] + line[at + 1 :],
            b" ".join(words[:-1]),
            b" ".join([words[0], b"0" + words[-1], *words[1:-1]]),
            b" ".join([*words[:-1], words[-1] + b"00000"]),
            b" ".join([*words[:1], self.dice.choice([b"00", b"100000", b"-1", b"", b"1x"]), *words[2:]]),
            b"w 1 0 " + self.text(most=4) + odd,
            b"w 1 0 " + bytes([self.dice.choice([32, 126])]) * self.dice.choice([0, 64, 65]),
        ])
        return broken.replace(b"\n", b" ")


def write_script(dice):
    """A script without its first line."""
    lines = [*Author(dice).script()]
    size = 2 + sum(len(line) + 1 for line in lines)
    if dice.random() < 0.03 and size < pool.SCRIPT_BYTES:
        # One of the longest that are read, or one byte more; one line fills it up.
        filler = dice.choice([b"w 1 0 ", b"c 1 ", b"h", b"p"]) + b"x" * pool.SCRIPT_BYTES
        filled = pool.SCRIPT_BYTES + dice.choice([0, 0, 1])
        lines.insert(dice.randint(0, len(lines)), filler[: filled - size - 1])
        return b"".join(line + b"\n" for line in lines)
    script = b"".join(line + b"\n" for line in lines)
    return script if dice.random() < 0.8 else script[:-1]


def join(printed):
    return b"".join(line + b"\n" for line in printed)


class Tally:
    """What was met so far."""

    def __init__(self):
        self.scripts, self.lines = collections.Counter(), 0
        self.granted, self.refused = collections.Counter(), collections.Counter()

    def add(self, script, printed):
        self.scripts[chr(script[0]) if script[:2] in (b"b\n", b"m\n") else "neither"] += 1
        self.lines += len(printed)
        for line, answer in zip(pool.lines(script), printed):
            if answer.startswith(b"no "):
                self.refused[int(answer.split()[1])] += 1
            else:
                self.granted[line[:1].decode()] += 1

    def report(self):
        def figures(counts):
            return ", ".join(f"{what}: {count}" for what, count in sorted(counts.items()))

        print(f"scripts: {sum(self.scripts.values())} ({figures(self.scripts)})")
        print(f"lines: {self.lines}")
        print(f"granted by letter: {figures(self.granted)}")
        print(f"refused by number: {figures(self.refused)}")


def run(console, script):
    """What the console prints; its status must be 0."""
    done = subprocess.run([console], input=script, capture_output=True, timeout=60)
    return done.stdout if done.returncode == 0 else done.stdout + b"status %d\n" % done.returncode


def shrink(script, differs):
    """Drops lines after the first while the script still differs."""
    lines = script.split(b"\n")
    size = len(lines) // 2
    while size:
        at = 1
        while at < len(lines):
            fewer = lines[:at] + lines[at + size :]
            if differs(b"\n".join(fewer)):
                lines = fewer
            else:
                at += size
        size //= 2
    return b"\n".join(lines)


def wanted(script, kind):
    """What the model says must be printed, or where it contradicts itself."""
    try:
        return join(pool.answers(script, kind))
    except AssertionError as error:
        return b"the model contradicts itself: %s\n" % str(error).encode()


def show(title, script):
    print(title, *pool.lines(script), sep="\n    ")


def compare(console, kind, count, seed):
    """Whether the console and the model print the same for so many scripts."""
    tally = Tally()
    for nth in range(count):
        dice = random.Random(f"{seed} {nth}")
        rest = write_script(dice)
        odd = dice.choice([b"", b"b \n", b"c\n", b"bm\n", b"B\n", b"m\r\n"])
        for first in [b"b\n", b"m\n"] if dice.random() < 0.97 else [odd]:
            script = first + rest
            want = wanted(script, kind)
            if run(console, script) != want:
                small = shrink(script, lambda other: run(console, other) != wanted(other, kind))
                show(f"script {nth} of seed {seed} differs; shrunk:", small)
                show("wanted:", wanted(small, kind))
                show("printed:", run(console, small))
                return False
            tally.add(script, pool.lines(want))
    tally.report()
    return True


def variety(script):
    """The answers to a script, each with its letter and without its line number. A refusal counts five times."""
    met = set()
    for line, answer in zip(pool.lines(script), pool.answers(script)):
        letter = line[:1] if line[:1] in pool.Console.LETTERS else b""
        what = b"text" if answer[:4] == b"text" else b" ".join(answer.split()[:3])
        met |= {(letter, what, nth) for nth in range(5 if what[:2] == b"no" else 1)}
    return met


def short_script(dice):
    """A script of 40 to 80 lines of printable bytes, without its first line."""
    while True:
        lines = [*itertools.islice(Author(dice, dice.choice(list(PLANS))).script(), dice.randint(39, 79))]
        if len(lines) >= 39 and all(32 <= byte <= 126 for line in lines for byte in line):
            return b"".join(line + b"\n" for line in lines)


def store(seed, count=8):
    """Puts new histories among the stored scripts, each chosen for the answers that those before it lack."""
    dice = random.Random(seed)
    data, listed = CASES / "data", CASES / "args"
    names = [name for name in listed.read_text().split() if "-history-" not in name]
    for old in data.glob("*-history-*"):
        old.unlink()
    kinds = {script: variety(b"b\n" + script) for script in (short_script(dice) for _ in range(1000))}
    met = set()
    for nth in range(count):
        first, allocator = [(b"b\n", "bitmap"), (b"m\n", "range-map")][nth % 2]
        best = max(kinds, key=lambda script: len(kinds[script] - met))
        met |= kinds[best]
        names.append(f"{int(names[-1][:2]) + 1:02}-history-over-a-{allocator}.txt")
        (data / names[-1]).write_bytes(first + best)
    listed.write_text("".join(name + "\n" for name in names))
    answered = [b"# %s\n" % name.encode() + join(pool.answers((data / name).read_bytes())) for name in names]
    (CASES / "stdout").write_bytes(b"".join(answered))


def main():
    words = argparse.ArgumentParser(usage=__doc__)
    words.add_argument("--scripts", type=int, default=1000)
    words.add_argument("--seed", default="1")
    words.add_argument("--console", type=pathlib.Path, default=CONSOLE)
    words.add_argument("--check", action="store_true")
    words.add_argument("--store", action="store_true")
    given = words.parse_args()
    if given.store:
        return store(given.seed)
    if not given.console.is_file():
        words.error(f"there is no console at {given.console}")
    kind = pool.Checked if given.check else pool.Console
    if not compare(given.console.resolve(), kind, given.scripts, given.seed):
        sys.exit(1)


if __name__ == "__main__":
    main()
