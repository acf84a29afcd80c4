"""Makes the calls on standard input through the binding for Python and prints the answers: README.md has the lines."""

import array
import sys
from pathlib import Path

import lemidrosy
from lemidrosy import Console, Recorder, Refused, Run
from lemidrosy.functions import Block

WORDS = 6464


def members(number):
    """The set that a number is."""
    return {place for place in range(number.bit_length()) if number >> place & 1}


def number_of(members):
    return sum(1 << place for place in members)


def message(one):
    return f"{one.number}:{one.sender}:{one.receiver}"


def pair(words):
    return tuple(map(int, words.split(":")))


def data(digits):
    return bytes.fromhex("" if digits == "-" else digits)


def words_of(length, pairs):
    words = [0] * length
    for place, word in map(pair, pairs):
        words[place] = word
    return words


def dump(run, name):
    words = array.array("H", run.words)
    if sys.byteorder == "big":
        words.byteswap()
    Path(name).write_bytes(words.tobytes())


def take(name):
    words = array.array("H", Path(name).read_bytes())
    if sys.byteorder == "big":
        words.byteswap()
    return words


def or_none(index):
    return "-" if index is None else index


class Driver:
    """One state, and a method for each call that gives the words of its answer."""

    def __init__(self):
        self.run = Run.from_words([])
        self.block = Block()
        self.recorder = None

    def start(self, *counts):
        self.run = Run(len(counts), map(int, counts))
        return ()

    def words(self, length, *pairs):
        self.run = Run.from_words(words_of(int(length), pairs))
        return ()

    def dump(self, name):
        dump(self.run, name)
        return ()

    def take(self, name):
        self.run = Run.from_words(take(name))
        return ()

    def save(self, name):
        Path(name).write_bytes(self.run.to_bytes())
        return ()

    def load(self, saved):
        self.run = Run.from_bytes(data(saved))
        return ()

    def store_file(self, name):
        self.run.store(name)
        return ()

    def load_file(self, name):
        self.run = Run.load(name)
        return ()

    def replay(self, everything, done, records):
        taken, lines = self.block.replay(self.run, everything == "1", int(done), data(records))
        return taken, int(self.block.goes_on), lines.hex() or "-"

    def checkpoint(self, process):
        done = self.run.checkpoint(int(process))
        return done.index, *done.deleted

    def send(self, sender, receiver):
        return (self.run.send(int(sender), int(receiver)),)

    def deliver(self, number):
        done = self.run.deliver(int(number))
        return or_none(done.forced), number_of(done.rose), *done.deleted

    def lose(self, number):
        self.run.lose(int(number))
        return ()

    def line(self, failed):
        return self.run.line(members(int(failed)))

    def recover(self, failed):
        done = self.run.recover(members(int(failed)))
        return done.rolled_back, *done.line, *done.deleted

    def lost(self, failed):
        return map(message, self.run.lost(members(int(failed))))

    def earliest(self, *named):
        return self.run.earliest(map(pair, named))

    def is_sound(self):
        return (int(self.run.is_sound()),)

    def numbers(self):
        read = self.run.numbers()
        return read.n, read.last_message, read.under_way, read.blocks.written, read.blocks.deleted

    def vector(self, process):
        return self.run.vector(int(process))

    def pins(self, process):
        return map(or_none, self.run.pins(int(process)))

    def kept(self, process):
        return (f"{one.index}:{int(one.cause)}:{one.blocks}" for one in self.run.kept(int(process)))

    def messages(self):
        return map(message, self.run.messages())

    def carried(self, number):
        return self.run.carried(int(number))

    def console(self, call, role, owned, *words):
        """A call through the console, by the method of its name."""
        if call == "start":
            self.run = Console.start(int(role), len(words), map(int, words))
            return ()
        other = Driver()
        other.run = Console(self.run, int(role), members(int(owned)))
        if call == "line":
            return map(or_none, other.line(*words))
        return getattr(other, call)(*words)

    def record(self, call, *words):
        """A call through the recorder, by the method of its name; questions are asked of its run."""
        if call == "start":
            self.recorder = Recorder(len(words), map(int, words))
            return ()
        if call == "trace":
            return (self.recorder.trace().hex() or "-",)
        other = Driver()
        other.run = self.recorder.run if call in ("line", "earliest") else self.recorder
        return getattr(other, call)(*words)

    def list(self):
        return self.run.list()

    def counts(self):
        return self.run.counts()

    def judge(self, trace):
        verdict = lemidrosy.judge(data(trace))
        return () if verdict.trackable else (verdict.near, verdict.far)

    def merge(self, processes, first, second):
        return (lemidrosy.merge(data(first), data(second), members(int(processes))).hex() or "-",)

    def simulate(self, n, spacing, steps, seed):
        figures = lemidrosy.simulate(int(n), int(spacing), int(steps), int(seed))
        return figures.deliveries, figures.forced, figures.most_kept, figures.per_thousand, figures.remainder


def main():
    driver = Driver()
    for line in sys.stdin:
        call, *words = line.split()
        try:
            if call.startswith("console_"):
                print(0, *driver.console(call.removeprefix("console_"), *words))
            elif call.startswith("record_"):
                print(0, *driver.record(call.removeprefix("record_"), *words))
            else:
                print(0, *getattr(driver, call)(*words))
        except Refused as refusal:
            print(refusal.number)


main()
