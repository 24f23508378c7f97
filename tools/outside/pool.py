#!/usr/bin/env python3
"""An outside model of the pool and of its console, written from docs/pool.md, docs/console.md and docs/refusals.md.

    tools/outside/pool.py [--check] [SCRIPT]

prints what the console must print for the script in the file SCRIPT, or else on standard input.

It goes by what the words mean: what a dataset reaches is found by walking its tree, a dead list is what the previous
reaches and the dataset does not, a block is given back once no dataset reaches it. It keeps no owner, no born and no
dead table. With --check it also holds, after every line, the rules by which a pool does without all that against these
meanings, and the figures against each other.
"""
import sys

BLOCKS, ROWS, DEAD_RECORDS, SCRIPT_BYTES, GROUPS = 256, 64, 512, 32_768, 65_535


class Refused(Exception):
    """A question was answered no; its argument is the question's number."""


def ask(question, yes):
    if not yes:
        raise Refused(question)


class Bitmap:
    """Takes the lowest free block from its cursor on, or else the lowest of all."""

    def __init__(self):
        self.cursor = 0

    def pick(self, owned):
        for block in [*range(self.cursor, BLOCKS), *range(self.cursor)]:
            if block not in owned:
                self.cursor = (block + 1) % BLOCKS
                return block


class RangeMap:
    """Takes the first block of the longest free range, the lowest one among equals."""

    def pick(self, owned):
        first, longest, at = 0, 0, 0
        for block in [*sorted(owned), BLOCKS]:
            if block - at > longest:
                first, longest = at, block - at
            at = block + 1
        return first


class Dataset:
    """A head, or a snapshot if it has a stamp. A pointer is a pair of a block and its birth; None is a hole."""

    def __init__(self, height, root, reached, previous, origin=None, stamp=0):
        self.height, self.root, self.reached = height, root, reached
        self.previous, self.origin, self.stamp = previous, origin, stamp

    def is_head(self):
        return self.stamp == 0

    def ancestors(self):
        """The snapshots from previous to previous, the youngest first."""
        at = self.previous
        while at:
            yield at
            at = at.previous

    def own_snapshots(self):
        for snapshot in self.ancestors():
            if snapshot is self.origin:
                return
            yield snapshot

    def dead_list(self):
        return self.previous.reached - self.reached if self.previous else set()

    def buckets(self):
        """The dead list, sorted by birth and block and cut behind the stamp of each ancestor but the youngest."""
        stamps = sorted(a.stamp for a in self.ancestors())
        keys = [0, *stamps[1:]]
        ends = [*keys[1:], GROUPS]
        dead = sorted((birth, block) for block, birth in self.dead_list())
        return [[r for r in dead if key < r[0] <= end] for key, end in zip(keys, ends)] if stamps else []


def stamp(snapshot):
    return snapshot.stamp if snapshot else 0


def young(pointers, limit):
    """Those born after the limit."""
    return {p for p in pointers if p[1] > limit}


def index(position, level):
    """Which of the eight pointers of an indirect block of this level leads to the position."""
    return position // 8 ** (level - 1) % 8


class Pool:
    def __init__(self, allocator):
        self.allocator = allocator
        self.memory = [None] * BLOCKS  # of each block the eight pointers of an indirect block, or the bytes of data
        self.owned = set()
        self.group = 1
        self.datasets = {}

    # Definitions.

    def walk(self, pointer, level, reached=None):
        """What is reached from a pointer of this level."""
        reached = set() if reached is None else reached
        if pointer:
            reached.add(pointer)
            if level:
                for below in self.memory[pointer[0]]:
                    if below:
                        self.walk(below, level - 1, reached)
        return reached

    def path(self, dataset, position):
        """The pointers met on the way to the position, as far as there are any."""
        pointer, path = dataset.root, []
        for level in range(dataset.height, -1, -1):
            if not pointer:
                break
            path.append(pointer)
            if level:
                pointer = self.memory[pointer[0]][index(position, level)]
        return path

    def clones(self, snapshot):
        return [d for d in self.datasets.values() if d.origin is snapshot]

    def only(self, pointers, dataset=None):
        """Those of the pointers that no dataset reaches, this one apart."""
        for other in self.datasets.values():
            if other is not dataset:
                pointers = pointers - other.reached
        return pointers

    # Questions that several calls put.

    def numbers(self, *numbers):
        ask(6, all(1 <= n <= 999 for n in numbers))

    def named(self, number):
        ask(7, number in self.datasets)
        return self.datasets[number]

    def head(self, number):
        dataset = self.named(number)
        ask(8, dataset.is_head())
        return dataset

    def at(self, dataset, position):
        ask(10, position < 8**dataset.height)
        return self.path(dataset, position)

    def room(self, head, path, taken):
        """Room for the call that takes so many blocks and by which the path leaves the head."""
        ask(15, BLOCKS - len(self.owned) >= taken)
        dead = sum(len(d.dead_list()) for d in self.datasets.values() if d is not head)
        if head.previous:
            dead += len(head.previous.reached - (head.reached - set(path)))
        ask(16, dead <= DEAD_RECORDS)

    # Changes. Each answers how many blocks it took and gave.

    def create(self, number, height):
        self.numbers(number)
        ask(9, number not in self.datasets)
        ask(10, 1 <= height <= 4)
        ask(13, len(self.datasets) < ROWS)
        self.datasets[number] = Dataset(height, None, set(), None)
        return 0, 0

    def write(self, number, position, data):
        self.numbers(number)
        head = self.head(number)
        path = self.at(head, position)
        self.room(head, path, head.height + 1)
        return self.replace(head, position, path, head.height + 1, data)

    def discard(self, number, position):
        self.numbers(number)
        head = self.head(number)
        path = self.at(head, position)
        if len(path) <= head.height:
            return 0, 0
        stay = head.height  # the indirect blocks that keep a pointer, from the root's on
        while stay and sum(p is not None for p in self.memory[path[stay - 1][0]]) == 1:
            stay -= 1
        self.room(head, path, stay)
        return self.replace(head, position, path, stay)

    def replace(self, head, position, path, taken, data=None):
        """Puts so many fresh blocks in the place of the path, from the root's level down."""
        fresh = [(self.take(), self.group) for _ in range(taken)]
        for depth, (block, _) in enumerate(fresh):
            content = data
            if depth < head.height:
                content = list(self.memory[path[depth][0]]) if depth < len(path) else [None] * 8
                content[index(position, head.height - depth)] = fresh[depth + 1] if depth + 1 < taken else None
            self.memory[block] = content
        before, head.root = head.reached, fresh[0] if fresh else None
        head.reached = self.walk(head.root, head.height)
        return taken, self.release(before - head.reached)

    def take(self):
        block = self.allocator.pick(self.owned)
        assert block not in self.owned
        self.owned.add(block)
        return block

    def release(self, left):
        """Gives back those of the blocks that no dataset reaches any more."""
        given = self.only(left)
        self.owned -= {block for block, _ in given}
        return len(given)

    def snapshot(self, number, new):
        self.numbers(number, new)
        head = self.head(number)
        ask(9, new not in self.datasets)
        ask(13, len(self.datasets) < ROWS)
        ask(14, self.group < GROUPS)
        made = Dataset(head.height, head.root, head.reached, head.previous, stamp=self.group)
        self.datasets[new] = head.previous = made
        self.group += 1
        return 0, 0

    def clone(self, number, new):
        self.numbers(number, new)
        origin = self.named(number)
        ask(8, not origin.is_head())
        ask(9, new not in self.datasets)
        ask(13, len(self.datasets) < ROWS)
        self.datasets[new] = Dataset(origin.height, origin.root, origin.reached, origin, origin)
        return 0, 0

    def destroy(self, number):
        self.numbers(number)
        gone = self.named(number)
        if gone.is_head():
            ask(12, not any(gone.own_snapshots()))
        else:
            ask(11, not self.clones(gone))
        del self.datasets[number]
        for dataset in self.datasets.values():
            if dataset.previous is gone:
                dataset.previous = gone.previous
        return 0, self.release(gone.reached)

    # Questions of the user.

    def read(self, number, position):
        self.numbers(number)
        dataset = self.named(number)
        path = self.at(dataset, position)
        return self.memory[path[-1][0]] if len(path) > dataset.height else None

    def unique(self, number):
        self.numbers(number)
        dataset = self.named(number)
        if not dataset.is_head():
            ask(11, not self.clones(dataset))
        return len(self.only(dataset.reached, dataset))

    def used(self, number):
        self.numbers(number)
        head = self.head(number)
        reached = set().union(head.reached, *(s.reached for s in head.own_snapshots()))
        return len(young(reached, stamp(head.origin)))


def number(word):
    ask(4, 1 <= len(word) <= 5 and all(48 <= byte <= 57 for byte in word) and (word == b"0" or word[0] != 48))
    return int(word)


class Console:
    """A pool opened by the first line of a script."""

    LETTERS = {  # the call of each letter, and how many words a line of it has
        b"c": (Pool.create, 3),
        b"w": (Pool.write, 4),
        b"x": (Pool.discard, 3),
        b"s": (Pool.snapshot, 3),
        b"k": (Pool.clone, 3),
        b"d": (Pool.destroy, 2),
        b"p": (Pool.read, 3),
        b"u": (Pool.unique, 2),
        b"a": (Pool.used, 2),
    }

    def __init__(self, line):
        ask(2, line in (b"b", b"m"))
        self.pool = Pool(Bitmap() if line == b"b" else RangeMap())

    def call(self, line):
        """The call that a line stands for, and its arguments."""
        letter = line[:1]
        ask(2, letter in self.LETTERS and line[1:2] == b" ")
        call, count = self.LETTERS[letter]
        words = line.split(b" ", 3) if letter == b"w" else line.split(b" ")
        ask(3, len(words) == count)
        if letter != b"w":
            return call, [number(w) for w in words[1:]]
        arguments, text = [number(w) for w in words[1:3]], words[3]
        ask(5, 1 <= len(text) <= 64 and all(32 <= byte <= 126 for byte in text))
        return call, [*arguments, text]

    def answer(self, line):
        """What is printed for a line that is granted."""
        call, arguments = self.call(line)
        result = call(self.pool, *arguments)
        if call is Pool.read:
            return b"hole" if result is None else b"text " + result
        if call in (Pool.unique, Pool.used):
            return b"= %d" % result
        return b"ok %d %d" % result


class Checked(Console):
    """A console that holds what it does against the rules and the figures."""

    taken = given = 0

    def answer(self, line):
        owned, foretold = set(self.pool.owned), self.foretell(line)
        try:
            answer = super().answer(line)
        except Refused:
            assert owned == self.pool.owned, "a refused call takes or gives a block"
            raise
        if answer.startswith(b"ok"):
            taken, given = map(int, answer.split()[1:])
            assert (taken, given) == foretold, f"a call takes and gives {taken} {given}, and by the rules {foretold}"
            assert taken == len(self.pool.owned - owned), "taken is what was not owned before"
            assert given == len(owned - self.pool.owned), "given is what is not owned after"
            self.taken, self.given = self.taken + taken, self.given + given
        self.figures()
        return answer

    def foretell(self, line):
        """What the rules say that a change takes and gives where it is granted: they go by births and stamps alone."""
        pool = self.pool
        try:
            call, arguments = self.call(line)
            if call in (Pool.create, Pool.snapshot, Pool.clone):
                return 0, 0
            dataset = pool.named(arguments[0])
            since = stamp(dataset.previous)
            if call is Pool.destroy:
                unique = pool.unique(arguments[0])
                assert unique == len(young(self.left_by(dataset), since)), "a destroy gives what unique says"
                return 0, unique
            if call not in (Pool.write, Pool.discard):
                return None
            path = pool.at(dataset, arguments[1])
            given = len(young(path, since))
            if call is Pool.write:
                return dataset.height + 1, given
            if len(path) <= dataset.height:
                return 0, 0
            stay = [n for n, (block, _) in enumerate(path[:-1], 1) if sum(map(bool, pool.memory[block])) > 1]
            return max(stay, default=0), given
        except Refused:
            return None

    def left_by(self, dataset):
        """Where a destroy of the dataset looks for what it gives back."""
        if dataset.is_head():
            return dataset.reached
        (following,) = (d for d in self.pool.datasets.values() if d.previous is dataset)
        return following.dead_list()

    def figures(self):
        pool, reached, used = self.pool, set(), 0
        for number, dataset in pool.datasets.items():
            walked = pool.walk(dataset.root, dataset.height)
            assert walked == dataset.reached, "a block that a dataset reaches was changed"
            reached |= walked
            born = young(walked, stamp(dataset.previous))
            if dataset.is_head():
                used += pool.used(number)
                assert pool.unique(number) == len(born), "unique of a head is its born"
                own = [dataset, *dataset.own_snapshots()]
                assert pool.used(number) == sum(len(young(d.reached, stamp(d.previous))) for d in own), "used adds born"
            in_buckets = [r for bucket in dataset.buckets() for r in bucket]
            assert in_buckets == sorted((birth, block) for block, birth in dataset.dead_list()), "buckets"
        assert {block for block, _ in reached} == pool.owned, "owned is reached"
        assert len(reached) == len(pool.owned), "a block has one birth"
        assert used == len(pool.owned), "used, summed, is what is owned"
        assert self.taken - self.given == len(pool.owned), "all that was taken and not given is owned"


LAYERS = {**dict.fromkeys(range(1, 6), b"s"), **dict.fromkeys(range(6, 13), b"p"), **dict.fromkeys(range(13, 19), b"m")}


def lines(script):
    """A last line may lack its byte 10; a final byte 10 opens no line."""
    found = script.split(b"\n")
    return found[:-1] if found[-1] == b"" else found


def refusal(question, line):
    return b"no %d %s %d" % (question, LAYERS[question], line)


def answers(script, kind=Console):
    """What the console prints for the script, as a list of lines."""
    if len(script) > SCRIPT_BYTES:
        return [refusal(1, 0)]
    console, printed = None, []
    for at, line in enumerate(lines(script), 1):
        try:
            if console is None:
                console = kind(line)
                printed.append(b"ok 0 0")
            else:
                printed.append(console.answer(line))
        except Refused as refused:
            printed.append(refusal(refused.args[0], at))
            if console is None:
                break
    return printed


def main():
    names = [word for word in sys.argv[1:] if word != "--check"]
    script = open(names[0], "rb").read() if names else sys.stdin.buffer.read()
    printed = answers(script, Checked if "--check" in sys.argv else Console)
    sys.stdout.buffer.write(b"".join(line + b"\n" for line in printed))


if __name__ == "__main__":
    main()
