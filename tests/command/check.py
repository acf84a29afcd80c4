"""The tests of the command: a class for each part of `run`. They run it as people do, in a folder of their own, at a pseudo-terminal too."""

import copy
import ctypes
import fcntl
import io
import os
import pickle
import pty
import random
import re
import select
import signal
import subprocess
import sys
import tempfile
import termios
import threading
import time
import traceback
import unittest
import xml.etree.ElementTree
from pathlib import Path

import lemidrosy
from lemidrosy import Refused, Run, foreign, functions, machine, numbers
from lemidrosy.calls import make
from lemidrosy.command import main, parser
from lemidrosy.history import Stored
from lemidrosy.library import library
from lemidrosy.text import FORMS, bytes_of, text_of
from lemidrosy.words import TextError

TOP = Path(os.environ["TOP"])
PROGRAMS = Path(os.environ["PROGRAMS"])
ORACLE = Path(os.environ["ORACLE"])
FEW = os.environ.get("FEW")
EXAMPLE = TOP / "crates" / "replay" / "stdin"
ABSENT_FILE = Path(os.environ.get("ABSENT", TOP / "tests" / "command" / "absent"))
ABSENT = set(ABSENT_FILE.read_text().split()) if ABSENT_FILE.exists() else set()
"""The calls that the library does not export yet. One that is exported all the same has to leave that file."""


# The modules of all subcommands, which the processes that go on from this one then have.
parser([])


def needs(*names):
    """For a test that needs these calls: it is left out while the library does not export one of them."""
    return unittest.skipIf(ABSENT & set(names), "not exported yet")


def many(count):
    """So many, or a hundredth where lists are cut short."""
    return max(1, count // 100) if FEW else count


def started(*words, given=b"", **more):
    """The command run to its end in an interpreter of its own: status, output and what it said."""
    done = subprocess.run([sys.executable, "-m", "lemidrosy", *map(str, words)], input=given, capture_output=True, timeout=60, **more)
    return done.returncode, done.stdout, done.stderr.decode()


def command(*words, given=b""):
    """The command run to its end in a process that goes on from this one, where the interpreter and the modules are: they take longer than what it does."""
    with tempfile.TemporaryFile() as output, tempfile.TemporaryFile() as said:
        ahead, behind = os.pipe()
        process = os.fork()
        if process == 0:
            os.close(behind)
            for place, file in enumerate((ahead, output.fileno(), said.fileno())):
                os.dup2(file, place)
            become(list(map(str, words)))
        os.close(ahead)
        try:
            with open(behind, "wb", buffering=0) as pipe:
                pipe.write(given)
        except BrokenPipeError:
            pass  # not all of it was read
        status = os.waitstatus_to_exitcode(os.waitpid(process, 0)[1])
        output.seek(0), said.seek(0)
        return status, output.read(), said.read().decode()


def become(words):
    """This process is the command with these words, and ends with it."""
    status = 1
    try:
        signal.alarm(60)
        sys.stdin, sys.stdout, sys.stderr = open(0, closefd=False), open(1, "w", closefd=False), open(2, "w", closefd=False)
        status = main(words)
    except SystemExit as end:
        status = end.code
    except BaseException:
        traceback.print_exc()
    finally:
        sys.stdout.flush(), sys.stderr.flush()
        os._exit(status)


def program(folder, name, *words, given=b""):
    """What a program of the tree or of the oracle prints."""
    return subprocess.run([folder / name, *map(str, words)], input=given, capture_output=True, timeout=60).stdout


class Case(unittest.TestCase):
    """What tests of the command ask."""

    maxDiff = None

    def ends(self, status, words, *arguments, given=b"", **more):
        """It ends with this status, prints nothing, and says these words in one line."""
        got, output, said = started(*arguments, given=given, **more) if more else command(*arguments, given=given)
        self.assertEqual((got, output), (status, b""), said)
        self.assertEqual(said.count("\n"), 1, said)
        self.assertIn(words, said)
        self.assertNotIn("Traceback", said)

    def prints(self, expected, *arguments, status=0, given=b"", says=""):
        """Started, it prints this, and ends with this status."""
        got, output, said = started(*arguments, given=given)
        self.assertEqual(output.decode(), expected, said)
        self.assertEqual((got, says in said), (status, True), said)


class Package(Case):
    """The package beside the command."""

    def test_examples_in_its_texts(self):
        import doctest

        for module in (lemidrosy, lemidrosy.console, lemidrosy.machine, lemidrosy.recorder, lemidrosy.run):
            result = doctest.testmod(module)
            self.assertEqual(result.failed, 0)
            self.assertGreater(result.attempted, 0)

    def test_a_recorded_run_is_made_again_by_its_records(self):
        for seed in range(many(50)):
            draws = random.Random(seed)
            n = 2 + draws.randrange(4)
            recorder = lemidrosy.Recorder(n)
            run = recorder.run
            for _ in range(60):
                pair = [draws.randrange(n + 1), draws.randrange(n + 1)]
                name, asked = draws.choice((("checkpoint", pair[:1]), ("send", pair), ("deliver", [draws.randrange(20)]), ("lose", [draws.randrange(60)]), ("recover", [pair[:1]])))
                said = []
                for call in (getattr(recorder, name), getattr(run, name)):
                    try:
                        said.append(call(*asked))
                    except Refused as refusal:
                        said.append(refusal.number)
                self.assertEqual(said[0], said[1], (seed, name, asked))
            self.assertEqual(recorder.run.words, run.words, seed)
            records = lemidrosy.Records(recorder.trace())
            again = Run(records.count)
            for record in records:
                make(again, record)
            self.assertEqual((again.words, records.rest), (run.words, b""), seed)
            self.assertGreater(records.taken, 5)

    def refused(self, number, call, *arguments):
        with self.assertRaises(Refused) as caught:
            call(*arguments)
        self.assertEqual(caught.exception.number, number)
        self.assertTrue(caught.exception.text)
        self.assertEqual(str(caught.exception), f"refused {number}: {caught.exception.text}")

    def test_an_owners_processes_past_the_run_count_for_nothing(self):
        run = lemidrosy.Console.start(lemidrosy.Role.OPERATOR, 2)
        for far in (-1, 2, 31, 32, 2**32, 2**32 + 1, 10**30):
            owner = lemidrosy.Console(run, lemidrosy.Role.JOB_OWNER, {0, far})
            self.assertEqual(owner.line(()), (1, None))
            self.refused(25, owner.checkpoint, far)
            self.refused(25, owner.checkpoint, 1)
            self.refused(25, lemidrosy.Console(run, far if far != 2 else 3, {0}).list)

    def test_numbers_of_any_size_are_judged_whole(self):
        run = Run(2)
        for far in (-1, 2**16, 2**32, 2**64, 2**64 + 1, 10**30, -(2**64)):
            self.refused(1, Run, far)
            self.refused(4, run.checkpoint, far)
            self.refused(4, run.send, far, 0)
            self.refused(4, run.send, 0, far)
            self.refused(4, run.vector, far)
            self.refused(8, run.deliver, far)
            self.refused(8, run.lose, far)
            self.refused(8, run.carried, far)
            self.refused(7, run.line, {far})
            self.refused(7, run.line, {0, far})
            self.refused(15, Run, 2, far)
            self.refused(4, run.earliest, {far: 0})
            self.refused(19, run.earliest, {0: far})
        self.refused(7, run.line, [2])
        self.refused(3, Run, 2, [1])
        self.refused(18, run.earliest, [])
        self.refused(18, run.earliest, [(0, 0), (0, 0)])
        with self.assertRaises(TypeError):
            run.checkpoint("0")
        with self.assertRaises(TypeError):
            run.line(1)

    def test_copies_are_apart(self):
        run = Run(2, [3, 4])
        run.checkpoint(0)
        for other in (run.copy(), copy.copy(run), copy.deepcopy(run), pickle.loads(pickle.dumps(run)), Run.from_words(run.words)):
            self.assertEqual(other.words, run.words)
            other.checkpoint(1)
            self.assertNotEqual(other.words, run.words)
        self.assertEqual(run.kept(0), (lemidrosy.Kept(1, lemidrosy.Cause.BASIC, 3),))

    def test_words_of_no_state(self):
        for words in ([], [0] * 6464, [1] * 6464, [65535] * 6465):
            run = Run.from_words(words)
            self.assertFalse(run.is_sound())
            self.refused(2, run.numbers)
            self.refused(2, run.checkpoint, 0)
            self.assertEqual(repr(run), "<Run: no sound state>")
        with self.assertRaises(ValueError):
            Run.from_words([65536])

    def test_what_is_absent(self):
        library = ctypes.CDLL(os.environ["LEMIDROSY_LIBRARY"])
        for name in ABSENT:
            self.assertFalse(hasattr(library, f"lemidrosy_{name}"), f"lemidrosy_{name} is exported, and must be tested: it has to leave tests/command/absent")

    def test_readers(self):
        run = Run(3)
        message = run.send(0, 1)
        self.assertEqual(run.messages(), (lemidrosy.Message(1, 0, 1),))
        self.assertEqual(run.carried(message), (1, 0, 0))
        self.assertEqual(run.deliver(message), lemidrosy.Delivered(None, frozenset({0}), ()))
        self.assertEqual((run.vector(1), run.pins(1)), ((1, 1, 0), (0, 0, None)))
        self.assertEqual(run.numbers(), lemidrosy.Numbers(3, 1, 0, lemidrosy.Blocks(3, 0)))
        self.assertEqual(run.line({0}), (0, 0, 1))
        self.assertEqual(run.earliest({1: 0, 2: 0}), (0, 0, 0))

    @needs("recover", "lost")
    def test_recover_and_sweep(self):
        run = Run(2)
        run.send(0, 1)
        self.assertEqual(run.lost({0}), (lemidrosy.Message(1, 0, 1),))
        self.assertEqual(run.lost({1}), ())
        self.assertEqual(run.recover({1}), lemidrosy.Recovered((1, 0), 1, ()))
        self.assertEqual(run.sweep(), lemidrosy.Recovered((1, 1), 0, ()))
        for far in (-1, 2, 32, 10**30):
            self.refused(7, run.recover, {far})
            self.refused(7, run.lost, {far})

    @needs("save", "load")
    def test_stored_states(self):
        run = Run(2)
        run.send(0, 1)
        saved = run.to_bytes()
        self.assertEqual(Run.from_bytes(saved).words, run.words)
        draws = random.Random(1)
        for _ in range(many(2000)):
            damaged = bytearray(saved)
            damaged[draws.randrange(len(damaged))] ^= 1 << draws.randrange(8)
            self.refused(2, Run.from_bytes, bytes(damaged))
        self.refused(2, Run.from_bytes, b"")
        self.refused(2, Run.from_bytes, saved[:-1])
        self.refused(2, Run.from_words([]).to_bytes)

    @needs("save", "load")
    def test_states_in_files(self):
        run = Run(3)
        run.send(0, 1)
        run.store("state")
        run.checkpoint(2)
        run.store(Path("state"))
        self.assertEqual(Run.load("state").words, run.words)
        self.assertEqual(Path("state").read_bytes(), run.to_bytes())
        self.refused(2, Run.load, EXAMPLE)
        self.refused(2, Run.from_words([]).store, "state")
        self.refused(2, Run.from_words([0] * 6464).store, "state")
        self.assertEqual(Run.load("state").words, run.words)
        with self.assertRaises(FileNotFoundError):
            Run.load("/no/such/file")
        with self.assertRaises(FileNotFoundError):
            run.store("/no/such/file")

    def test_records(self):
        draws = random.Random(2)
        for _ in range(many(2000)):
            trace = draws.randbytes(draws.randrange(40))
            records = lemidrosy.Records(trace)
            whole = list(records)
            if records.count is None:
                self.assertEqual((trace, whole), (b"", []))
                continue
            self.assertEqual(lemidrosy.trace_of(records.count, whole) + records.rest, trace)
            self.assertEqual(records.taken, len(whole))

    def test_threads_on_one_run(self):
        run = Run(2)
        threads = [threading.Thread(target=lambda: [run.checkpoint(0) for _ in range(500)]) for _ in range(4)]
        for thread in threads:
            thread.start()
        for thread in threads:
            thread.join()
        self.assertEqual(run.vector(0), (2001, 0))

    def test_answers_of_any_kind_to_a_machine(self):
        """It stops whatever it is told, and none of its lists is left."""
        draws = random.Random(6)
        for _ in range(many(300)):
            machine = lemidrosy.Machine(draws.choice(lemidrosy.machine.PROGRAMS))
            for _ in range(200):
                if draws.randrange(3) and machine.request.kind in (1, 6):
                    machine.bring(draws.randbytes(draws.randrange(machine.request.size + 1)))
                else:
                    machine.step(draws.choice((0, 1, 2, 3, 4, 5, 2**64 - 1)), draws.choice((0, 1, 2, 3, 4096, 2**64 - 1)))
                self.assertLessEqual(len(machine.out()), 67584)
            for _ in range(20):
                machine.step(0)
            self.assertEqual(machine.request, (0, 0, 0, 0))
        with self.assertRaisesRegex(ValueError, "no machine is called 'exam'"):
            lemidrosy.Machine("exam")
        machine = lemidrosy.Machine("judge")
        with self.assertRaisesRegex(ValueError, "2 bytes, where 1 were asked for"):
            machine.bring(b"\2\2")

    def test_lists_of_a_machine_as_the_header_has_them(self):
        """With lists as long as it says a machine begins; with one entry less it is refused with 3, and nothing is written."""
        header = (TOP / "bindings" / "c" / "lemidrosy.h").read_text()
        for name, lent in machine._LENT.items():
            sizes = {part: int(found[1]) for part, _ in lent if (found := re.search(rf"LEMIDROSY_{name.upper()}_{part.upper()} = (\d+)", header))}
            sizes["words"] = 6464
            for short in (None, "request", *(part for part, _ in lent)):
                lists = [(machine._ENTRIES[part] * (sizes[part] - (part == short)))() for part, _ in lent]
                request = (ctypes.c_uint64 * (4 - (short == "request")))(*[7] * (4 - (short == "request")))
                arguments = [part for one in (*lists, request) for part in (one, len(one))]
                refused = getattr(library(), f"{name}_begin")(*arguments)
                self.assertEqual(refused, 0 if short is None else 3, (name, short))
                self.assertEqual(set(request) == {7} and not any(map(any, lists)), short is not None, (name, short))

    def test_a_machine_with_an_input_that_would_block(self):
        there, here = os.pipe()
        os.set_blocking(there, False)
        said = io.BytesIO()
        with open(there, "rb", buffering=0) as source, open(here, "wb", buffering=0):
            failed = lemidrosy.drive(lemidrosy.Machine("replay"), source, io.BytesIO(), said)
        self.assertIsInstance(failed, BlockingIOError)
        self.assertEqual(said.getvalue(), b"replay: standard input: Resource temporarily unavailable\n")

    def test_a_library_that_is_not_there(self):
        for named, words in (("/no/such.so", "which is no file"), (str(EXAMPLE), "cannot be loaded")):
            environment = {**os.environ, "LEMIDROSY_LIBRARY": named}
            self.ends(3, words, "explain", EXAMPLE, env=environment)


class Installation(Case):
    """pip, without a network."""

    def test_installed_by_pip(self):
        place = Path("installed").resolve()
        # pip stands there compiled; what is not is not to be kept there
        environment = {key: value for key, value in os.environ.items() if key not in ("PYTHONPATH", "PYTHONPYCACHEPREFIX")} | {"PYTHONDONTWRITEBYTECODE": "1"}
        pip = [sys.executable, "-m", "pip", "install", "--quiet", "--no-index", "--disable-pip-version-check", "--root-user-action=ignore", "--target", str(place)]
        source = Path("source")
        subprocess.run(["cp", "-r", os.environ["PYTHONPATH"], str(source)], check=True)
        done = subprocess.run([*pip, str(source.resolve())], env=environment, capture_output=True, text=True)
        self.assertEqual((done.returncode, done.stdout), (0, ""), done.stderr)
        del environment["LEMIDROSY_LIBRARY"]
        environment["PYTHONPATH"] = str(place)
        code = "import lemidrosy; print(lemidrosy.__file__, lemidrosy.Run(3).line({0}))"
        done = subprocess.run([sys.executable, "-c", code], env=environment, capture_output=True, text=True, cwd="/")
        self.assertEqual(done.stdout, f"{place}/lemidrosy/__init__.py (0, 1, 1)\n", done.stderr)
        done = subprocess.run([place / "bin" / "lemidrosy", "--version"], env=environment, capture_output=True, text=True, cwd="/")
        self.assertEqual(done.stdout, f"lemidrosy {lemidrosy.__version__}\n", done.stderr)
        self.assertTrue((place / "lemidrosy" / "py.typed").exists())


def drawn(draws):
    """Bytes that are often a trace, a half or a script, or nearly one."""
    size = draws.choice((0, 1, 2, 3, 4, 5, 6, 9, 13, 17, 25, 33, 60, 101))
    return bytes(draws.choice((0, 0, 0, 1, 2, draws.randrange(16), draws.randrange(256), 128, 129, 64, 32)) for _ in range(size))


class Text(Case):
    """The text of traces, and back."""

    def test_any_bytes_and_back(self):
        draws = random.Random(3)
        for _ in range(many(6000)):
            data = drawn(draws)
            for heading in FORMS:
                lines = list(text_of(io.BytesIO(data), heading))
                self.assertEqual(b"".join(bytes_of(lines)), data, lines)

    def test_every_kind_of_record_and_call(self):
        for kind in range(256):
            for field in (0, 1, 15, 16, 255):
                data = bytes([2, kind, 0, 0, field, field, kind, 0, 0])
                for heading in FORMS:
                    self.assertEqual(b"".join(bytes_of(text_of(io.BytesIO(data), heading))), data)

    def test_the_command_both_ways(self):
        draws = random.Random(4)
        for _ in range(many(6)):
            data = drawn(draws)
            for option in ((), ("--half",), ("--console",)):
                status, text, said = command("text", *option, given=data)
                self.assertEqual((status, said), (0, ""))
                self.assertEqual(command("bytes", given=text), (0, data, ""))

    def test_the_example(self):
        records = "send 0 1,deliver 1,checkpoint 1,checkpoint 0,send 1 0,deliver 2,send 0 1,deliver 3,recover 0,deliver 3"
        text = "processes 2\n" + records.replace(",", "\n") + "\n"
        self.prints(text, "text", EXAMPLE)
        Path("example.txt").write_text("# document 01's example\n\n" + text.replace("\n", "   # a comment\n"))
        self.assertEqual(started("bytes", "example.txt"), (0, EXAMPLE.read_bytes(), ""))

    def test_traces_of_the_oracle(self):
        for seed in range(many(300)):
            trace = program(ORACLE, "oracle", "generate", seed, "--records", 40, "--mix", ("mixed", "damaged", "foreign")[seed % 3])
            self.assertEqual(b"".join(bytes_of(text_of(io.BytesIO(trace)))), trace)

    def test_names_of_messages(self):
        named = "processes 3\nsend 0 0\nsend 0 1 as a\nsend 2 1 as b.1\ndeliver b.1\nlose a\nsend 1 0 as a\ndeliver a\n"
        plain = "processes 3\nsend 0 0\nsend 0 1\nsend 2 1\ndeliver 2\nlose 1\nsend 1 0\ndeliver 3\n"
        self.assertEqual(b"".join(bytes_of(named.split("\n"))), b"".join(bytes_of(plain.split("\n"))))

    @needs("recover")
    def test_names_that_are_given(self):
        for seed in range(many(200)):
            trace = program(ORACLE, "oracle", "generate", seed, "--records", 40, "--mix", ("valid", "recovering", "mixed", "damaged")[seed % 4])
            self.assertEqual(b"".join(bytes_of(text_of(io.BytesIO(trace), names=True))), trace, seed)
        status, text, said = command("text", "--names", EXAMPLE)
        self.assertEqual(text.decode().split("\n")[1:3], ["send 0 1 as m1", "deliver m1"])
        self.ends(2, "not allowed with", "text", "--names", "--half")

    def test_bad_text(self):
        cases = {
            "x": (1, 1, "a first line: processes N, half N, console N"),
            "processes": (1, 10, "the first byte, the count of processes, 0 to 255"),
            "processes 256": (1, 11, "0 to 255"),
            "processes 2 3": (1, 13, "the end of the line"),
            "processes 2\n\nsend 0": (3, 7, "the receiver, 0 to 33554431"),
            "processes 2\nsend 16 1": (2, 6, "a process, 0 to 15"),
            "processes 2\nsend 0 1 as": (2, 12, "a name for the message"),
            "processes 2\nsend 0 1 as 7": (2, 13, "a name for the message"),
            "processes 2\nsend 0 1 as a\ndeliver b": (3, 9, "a message that a line above has named"),
            "processes 2\nsend 0 0 as a": (2, 13, "a send that is accepted, since it names its message (refused 5:"),
            "processes 2\nrecover": (2, 8, "a failed process, 0 to 24"),
            "processes 2\nrecover 25": (2, 9, "a failed process, 0 to 24"),
            "processes 2\n  deliver -1": (2, 11, "a message, 0 to 33554431"),
            "processes 2\ndeliver 33554432": (2, 9, "a message, 0 to 33554431"),
            "processes 2\nsweep 1": (2, 7, "the end of the line"),
            "processes 2\nrecord 8 0 0": (2, 8, "a kind, 0 to 7"),
            "processes 2\ndelver 1": (2, 1, "checkpoint, send, deliver, lose, recover, sweep, record or bytes"),
            "processes 2\nbytes": (2, 6, "a byte, two hexadecimal digits"),
            "processes 2\nbytes 01 02 03 04": (2, 16, "at most 3 bytes"),
            "processes 2\nbytes 01\nsweep": (3, 1, "nothing after the bytes that are left over"),
            "half 2\ndeliver 3": (2, 10, "'from'"),
            "half 2\ndeliver 2097152 from 0": (2, 9, "the sender's running count, 0 to 2097151"),
            "half 2\nrecover 0": (2, 1, "checkpoint, send, deliver, lose, record or bytes"),
            "console 2\nowner: list": (2, 6, "an owned process, 0 to 15"),
            "console 2\nboss: list": (2, 1, "operator, owner, viewer, call or bytes"),
            "console 2\nviewer list": (2, 8, "':'"),
            "console 2\nviewer: lists": (2, 9, "checkpoint, send,"),
            "console 2\ncall 00": (2, 6, "eight bytes, 16 hexadecimal digits"),
        }
        for text, (line, column, expected) in cases.items():
            with self.assertRaises(TextError, msg=text) as caught:
                b"".join(bytes_of(text.split("\n")))
            error = caught.exception
            self.assertEqual((error.line, error.column), (line, column), error)
            self.assertIn(expected, error.expected)
        self.ends(1, "line 2, column 1: expected checkpoint, send, deliver, lose, recover, sweep, record or bytes, found 'x'", "bytes", given=b"processes 2\nx\n")
        self.ends(1, "line 2, column 1", "bytes", given=b"processes 2\n\xff\xfe\x00\n")


class Words(Case):
    """What the command says of itself, and of wrong words."""

    def test_help(self):
        status, text, said = command("--help")
        self.assertEqual((status, said), (0, ""))
        for name in re.findall(r"^    (\w+) ", text.decode(), re.M):
            status, text, said = command(name, "--help")
            self.assertEqual((status, said), (0, ""))
            self.assertRegex(text.decode(), rf"\nexamples?(, .*)?:\n  lemidrosy {name} ")

    def test_version(self):
        self.prints(f"lemidrosy {lemidrosy.__version__}\n", "--version")

    def test_wrong_usage(self):
        for words in ((), ("no",), ("explain",), ("explain", EXAMPLE, "x"), ("line", EXAMPLE), ("line", EXAMPLE, "--failed", "x"), ("line", EXAMPLE, "--failed", "0,"),
                      ("earliest", EXAMPLE), ("earliest", EXAMPLE, "0"), ("text", "a", "b"), ("text", "--half", "--console")):
            with self.subTest(words):
                self.ends(2, "lemidrosy", *words)

    @needs("recover")
    def test_a_record_that_is_not_there(self):
        for words in (("explain", EXAMPLE, "11"), ("explain", EXAMPLE, "0"), ("line", EXAMPLE, "--all", "--at", "11"), ("line", EXAMPLE, "--all", "--at", "-1")):
            with self.subTest(words):
                self.ends(2, "there is no record ", *words)


class Explain(Case):
    """`explain`."""

    def test_why_record_8_forced(self):
        self.prints(
            """\
record 8: deliver 3, the message from 0 to 1
  process 1 stores checkpoint 2, a forced one, before it takes the message in:
    it has sent since its last checkpoint, and the message brings news of 0 (interval 2, 1 knew 1)
  vector of 1: (1, 2) -> (2, 3)
  pins of 1: (0, 1) -> (2, 2)
  checkpoint 1:0 is deleted: no pin names it any more, the pin for 0 names 2 now
  checkpoint 1:1 is deleted: no pin names it any more, the pin for 1 names 2 now
  checkpoint 0:1 (basic) stays: the pins for 0 and 1 name it; the line uses it if 0 fails
  checkpoint 1:2 (forced) stays: the pins for 0 and 1 name it; the line uses it if 0 or 1 fails
""",
            "explain",
            EXAMPLE,
            8,
        )

    @needs("recover")
    def test_recovery_and_refusal(self):
        status, text, said = command("explain", EXAMPLE)
        self.assertEqual((status, said), (1, ""))
        self.assertIn("record 9: recover 0\n  process 0 failed; the line is (1, 2)\n  process 0 goes back to checkpoint 1: 2 events are undone\n", text.decode())
        self.assertTrue(text.decode().endswith("delivered by record 8, and the recovery of record 9 undid the receipt\n"), text)

    def test_text_is_taken_too(self):
        self.assertEqual(command("explain", "-", 8, given=command("text", EXAMPLE)[1]), command("explain", EXAMPLE, 8))

    @needs("recover")
    def test_any_trace(self):
        """Each record's line of the replay is the one that the explanation tells."""
        for seed in range(many(100)):
            trace = program(ORACLE, "oracle", "generate", seed, "--records", 40, "--mix", ("valid", "recovering", "mixed", "damaged")[seed % 4])
            listing = program(PROGRAMS, "replay", "all", given=trace).decode().splitlines()
            status, text, said = explained(trace)
            told = re.findall(r"^record (\d+): .*(?:\n  (refused (\d+))?.*)?", text, re.M)
            refusals = [line.split() for line in listing if line.split()[1] != "0"]
            self.assertEqual(status != 0, bool(refusals), (seed, said))
            here = [[number, refused] for number, _, refused in told if refused]
            self.assertEqual(here, [words for words in refusals if words[0] != "0" and words[1] != "13"], seed)
            deleted = re.findall(r"checkpoint (\d+:\d+) is deleted", text)
            self.assertEqual(deleted, [pair for line in listing for pair in line.split()[4:]], seed)


def explained(trace):
    """What the command explains of a trace, in this process."""
    from lemidrosy import explain
    from lemidrosy.history import begun

    text, status = [], 0
    try:
        follower, records = begun(trace)
    except Refused as refusal:
        return 1, "", str(refusal)
    explanation = explain.Explanation(follower, True)
    for record in records:
        step = follower.take(record)
        status = 1 if step.refusal else status
        text += explanation.lines(step)
    return (1 if records.rest else status), "\n".join(text), ""


class Lines(Case):
    """`line` and `earliest`."""

    def test_the_exam_sheet(self):
        cases = ((2, "0", "0 0"), (2, "1", "1 0"), (3, "0", "0 0"), (3, "1", "1 1"), (4, "0", "1 2"), (4, "1", "2 1"), (6, "1", "1 1"), (8, "1", "2 2"), (8, "0", "1 2"))
        for at, failed, line in cases:
            status, text, said = command("line", EXAMPLE, "--at", at, "--failed", failed)
            self.assertEqual((status, said), (0, ""))
            self.assertEqual(text.decode().split("\n")[0], f"after record {at}, if process {failed} fails: line {line}")

    def test_a_table(self):
        self.prints(
            """\
after record 8, if process 0 fails: line 1 2
process  goes back to      checkpoints undone  events undone
      0  checkpoint 1                       0              2
      1  checkpoint 2                       0              1
""",
            "line", EXAMPLE, "--at", 8, "--failed", 0,
        )

    def test_checkpoints_that_are_undone(self):
        self.prints(
            """\
after record 3, if process 0 fails: line 0 0
process  goes back to      checkpoints undone  events undone
      0  checkpoint 0                       0              1
      1  checkpoint 0                       1              1
""",
            "line", EXAMPLE, "--at", 3, "--failed", 0,
        )

    @needs("lost")
    def test_messages_that_are_lost(self):
        trace = b"".join(bytes_of("processes 3\nsend 0 1\ncheckpoint 1\nsend 1 2\nsend 2 0".split("\n")))
        status, text, said = command("line", "-", "--failed", "0,1", given=trace)
        self.assertEqual(text.decode().split("\n")[-2], "messages under way that are lost: 1 (0 to 1) and 2 (1 to 2)")
        status, text, said = command("line", "-", "--failed", "2", given=trace)
        self.assertEqual(text.decode().split("\n")[-2], "messages under way that are lost: 3 (2 to 0)")

    def test_all_sets(self):
        self.prints(
            """\
failed  roll back  events undone  line
0               2              3  1 2
1               1              1  2 2
0,1             2              3  1 2
""",
            "line", EXAMPLE, "--at", 8, "--all",
        )

    def test_the_start(self):
        self.prints("failed  roll back  events undone  line\n0               1              0  0\n", "line", "-", "--all", given=b"\x01")

    def test_refused(self):
        self.ends(1, "refused 7: ", "line", EXAMPLE, "--at", 8, "--failed", "2")
        self.ends(1, "refused 19: ", "earliest", EXAMPLE, "--at", 8, "1:1")
        self.ends(1, "refused 12: ", "line", "-", "--all")
        self.ends(1, "refused 1: ", "line", "-", "--all", given=b"\x11")

    def test_earliest(self):
        self.prints("after record 8: line 1 2\nprocess  state\n      0  checkpoint 1, basic\n      1  checkpoint 2, forced\n", "earliest", EXAMPLE, "--at", 8, "1:2")

    @needs("recover")
    def test_a_refused_record_is_told(self):
        status, text, said = command("line", EXAMPLE, "--failed", "0")
        self.assertEqual((status, said), (1, "lemidrosy: record 10 was refused 8: no such message is under way; it changed nothing\n"))
        self.assertEqual(text.decode().split("\n")[0], "after record 10, if process 0 fails: line 1 3")

    def test_bytes_left_over_are_told(self):
        for words in (("line", "-", "--all"), ("earliest", "-", "0:0"), ("draw", "-"), ("draw", "-", "--compare"), ("explain", "-")):
            status, text, said = command(*words, given=bytes.fromhex("02 20000001 4000"))
            self.assertEqual((status, said.count("\n"), "refused 13: " in said), (1, 1, True), said)


SHAPE = "{http://www.w3.org/2000/svg}"


def placed(part, across, down):
    """All parts of a picture, with how far each was moved."""
    moved = re.fullmatch(r"translate\((.*),(.*)\)", part.get("transform", ""))
    if moved:
        across, down = across + float(moved.group(1)), down + float(moved.group(2))
    yield part, across, down
    for inner in part:
        yield from placed(inner, across, down)


def outside(svg):
    """What stands outside the frame of a picture, which is well-formed."""
    root = xml.etree.ElementTree.fromstring(svg)
    width, height = float(root.get("width")), float(root.get("height"))
    for part, across, down in placed(root, 0, 0):
        name, get = part.tag.removeprefix(SHAPE), lambda key: float(part.get(key, 0))
        places = []
        if name == "line":
            places = [(get("x1"), get("y1")), (get("x2"), get("y2"))]
        elif name in ("polygon", "polyline"):
            places = [tuple(map(float, pair.split(","))) for pair in part.get("points").split()]
        elif name == "circle":
            places = [(get("cx") - get("r"), get("cy") - get("r")), (get("cx") + get("r"), get("cy") + get("r"))]
        elif name == "rect":
            places = [(get("x"), get("y")), (get("x") + get("width"), get("y") + get("height"))]
        elif name == "text":
            long = 0.62 * get("font-size") * len(part.text)
            start = get("x") - {"start": 0, "middle": long / 2, "end": long}[part.get("text-anchor")]
            places = [(start, get("y")), (start + long, get("y"))]
        elif name not in ("svg", "title", "g"):
            yield f"unknown part {name}"
        for x, y in places:
            if not (-0.1 <= x + across <= width + 0.1 and -0.1 <= y + down <= height + 0.1):
                yield f"{name} at {x}, {y} of {width}, {height}"


class Draw(Case):
    """`draw`."""

    def drawn(self, trace, *words, status=0):
        """The picture of a trace, which is whole."""
        got, svg, said = command("draw", "-", *words, given=trace)
        self.assertEqual(got, status, said)
        self.assertEqual(list(outside(svg)), [])
        return svg.decode()

    def test_the_example(self):
        """Its marks: two initial checkpoints, deleted; one basic, kept, one deleted; one forced; three messages; and the line for {0}."""
        svg = self.drawn(EXAMPLE.read_bytes(), "--at", 8, "--failed", 0, "--title", "a < b & c")
        marks = svg.split("initial</text>")[0].rsplit("<circle", 1)[0]
        self.assertEqual(len(re.findall(r'<circle [^>]*r="6.5"[^>]*fill="#ffffff"', marks)), 2)
        self.assertEqual(len(re.findall(r"<text[^>]*>m[123]</text>", svg)), 3)
        self.assertIn("line if 0 fails", svg)
        self.assertIn("a &lt; b &amp; c", svg)
        self.assertEqual(svg, self.drawn(command("text", EXAMPLE)[1], "--at", 8, "--failed", 0, "--title", "a < b & c"))

    @needs("recover")
    def test_any_trace(self):
        for seed in range(many(18)):
            count = (0, 3, 20, 60, 130, 1000)[seed % 6]
            trace = program(ORACLE, "oracle", "generate", seed, "--n", 1 + seed % 16, "--records", count, "--mix", ("valid", "recovering", "mixed")[seed % 3])
            got, svg, said = command("draw", "-", "--failed", 0, "--from", max(1, count // 3), given=trace)
            self.assertIn(got, (0, 1), said)
            self.assertEqual(list(outside(svg)), [], seed)

    @needs("recover")
    def test_before_and_after(self):
        svg = self.drawn(EXAMPLE.read_bytes(), "--at", 9, "--compare")
        self.assertEqual((svg.count("<g "), "after record 8" in svg, "after record 9" in svg), (2, True, True))
        long = program(ORACLE, "oracle", "generate", 3, "--n", 4, "--records", 60, "--mix", "valid")
        svg = command("draw", "-", "--compare", given=long)[1]
        self.assertEqual((list(outside(svg)), b'translate(0,0)' in svg), ([], True))
        self.ends(2, "--compare needs a record", "draw", "-", "--compare", given=b"\x02")

    def test_a_zigzag_cycle(self):
        text = b"processes 2\nsend 1 0\ndeliver 1\ncheckpoint 0\nsend 0 1\ndeliver 2\n"
        svg = self.drawn(text, "--judge", status=1)
        self.assertIn("a zigzag path from 0:1 to 0:1 without causal precedence", svg)
        self.assertEqual(len(re.findall(r'<text[^>]*fill="#1f6fb2"[^>]*>m[12]</text>', svg)), 2)
        self.assertIn("trackable", self.drawn(b"processes 2\nsend 1 0\ndeliver 1\n", "--judge"))
        self.ends(1, "refused 14", "draw", EXAMPLE, "--judge")
        self.ends(2, "--judge goes without", "draw", EXAMPLE, "--judge", "--failed", "0")

    def test_zigzag_paths(self):
        """What is drawn is such a path, between the ends that the judge names."""
        found = 0
        for seed in range(many(300)):
            trace = program(ORACLE, "oracle", "generate", seed, "--n", 2 + seed % 5, "--records", 50, "--mix", "foreign")
            if refused(lemidrosy.judge, trace) or lemidrosy.judge(trace).trackable:
                continue
            verdict, history = lemidrosy.judge(trace), foreign.history_of(trace)
            path = [history.messages[number] for number in foreign.zigzag(history, verdict.near, verdict.far)]
            interval = {id(event): sum(isinstance(other, Stored) for other in events[:place]) for events in history.lists for place, event in enumerate(events)}
            self.assertEqual((path[0].sender, path[-1].receiver), (verdict.near.process, verdict.far.process))
            self.assertGreater(interval[id(path[0].sent)], verdict.near.index)
            self.assertLessEqual(interval[id(path[-1].received)], verdict.far.index)
            for one, other in zip(path, path[1:]):
                self.assertEqual(one.receiver, other.sender)
                self.assertLessEqual(interval[id(one.received)], interval[id(other.sent)])
            found += 1
        self.assertGreater(found, 0)

    def test_a_run_draws_itself(self):
        run = Run(16)
        self.assertEqual(list(outside(run._repr_svg_())), [])
        for process in range(15):
            run.checkpoint(process)
            run.send(process, process + 1)
        self.assertEqual(list(outside(run._repr_svg_())), [])
        self.assertEqual(list(outside(Run(1)._repr_svg_())), [])
        self.assertEqual(Run.from_words([])._repr_svg_(), "")

    def test_pixels(self):
        environment = {**os.environ, "PATH": ""}
        self.ends(3, "rsvg-convert is not there", "draw", EXAMPLE, "--at", 8, "-o", "example.png", env=environment)

    def test_windows_that_are_not_there(self):
        for first in ("0", "9"):
            self.ends(2, f"there is no record {first}", "draw", EXAMPLE, "--at", 8, "--from", first)

    def test_to_a_file(self):
        self.assertEqual(started("draw", EXAMPLE, "--at", 8, "-o", "example.svg"), (0, b"", ""))
        self.assertEqual(list(outside(Path("example.svg").read_text())), [])
        self.ends(3, "/no/such.svg: No such file", "draw", EXAMPLE, "--at", 8, "-o", "/no/such.svg")


class Gallery(Case):
    """docs/gallery."""

    @needs("recover")
    def test_drawn_again(self):
        gallery = TOP / "docs" / "gallery"
        Path("gallery").mkdir()
        done = subprocess.run([gallery / "draw", "gallery"], capture_output=True, text=True)
        self.assertEqual((done.returncode, done.stdout, done.stderr), (0, "", ""))
        names = [line.split()[0] for line in (gallery / "pictures").read_text().splitlines() if not line.startswith("#")]
        self.assertEqual(sorted(path.stem for path in gallery.glob("*.svg")), sorted(names))
        for name in names:
            drawn = Path("gallery", f"{name}.svg").read_text()
            self.assertEqual(drawn, (gallery / f"{name}.svg").read_text(), f"{name}: docs/gallery/draw draws them anew")
            self.assertEqual(list(outside(drawn)), [], name)
        self.assertEqual(re.findall(r"\((.*)\.svg\)", (gallery / "README.md").read_text()), names)


class Programs(Case):
    """The subcommands that print what the proved programs print."""

    def same(self, name, words, given=b"", more=()):
        """The same bytes on standard output, and a status that says whether all was accepted."""
        right = subprocess.run([PROGRAMS / name, *map(str, words)], input=given, capture_output=True, timeout=60)
        status, output, said = command(name, *words, *more, given=given)
        self.assertEqual(output, right.stdout, (name, words, said))
        return status, said

    def test_replay_in_this_process(self):
        for seed in range(many(1000)):
            trace = program(ORACLE, "oracle", "generate", seed, "--records", (0, 5, 60, 400)[seed % 4], "--mix", ("valid", "recovering", "mixed", "damaged")[seed // 4 % 4])
            listing = program(PROGRAMS, "replay", "all", given=trace).splitlines(keepends=True)
            first = next((place for place, line in enumerate(listing) if line.split()[1] != b"0"), None)
            for all, expected in ((True, listing), (False, listing if first is None else listing[: first + 1])):
                replayed = functions.Replay(trace, all)
                self.assertEqual(b"".join(replayed.text()), b"".join(expected), seed)
                self.assertEqual(replayed.refusal is None, first is None)
                self.assertEqual([[one.number, one.refused] for one in lemidrosy.replay(trace, all)], [list(map(int, line.split()[:2])) for line in expected])

    def test_replay(self):
        self.prints(program(PROGRAMS, "replay", given=EXAMPLE.read_bytes()).decode(), "replay", EXAMPLE, status=1, says="record 10, deliver 3: refused 8: no such message is under way")
        for seed in range(many(12)):
            trace = program(ORACLE, "oracle", "generate", seed, "--mix", ("valid", "mixed", "damaged")[seed % 3])
            right = program(PROGRAMS, "replay", "all", given=trace)
            status, output, said = command("replay", "--all", given=trace)
            self.assertEqual(output, right)
            self.assertEqual((status, said.count("\n")), ((1, 1) if re.search(rb"^\d+ [1-9]", right, re.M) else (0, 0)))
        self.prints("0 12\n", "replay", status=1, says="refused 12")
        self.prints("0 1\n", "replay", status=1, given=b"\x11", says="refused 1:")
        self.prints("1 13\n", "replay", status=1, given=b"\x02abc", says="refused 13")

    def test_exam(self):
        self.assertEqual(started("exam"), (0, program(PROGRAMS, "exam"), ""))

    def test_lines_that_are_due_stand_there(self):
        """What came in is replayed before more comes."""
        with subprocess.Popen([sys.executable, "-m", "lemidrosy", "replay"], stdin=subprocess.PIPE, stdout=subprocess.PIPE) as running:
            running.stdin.write(bytes.fromhex("02 20000001 400000"))
            running.stdin.flush()
            self.assertEqual(os.read(running.stdout.fileno(), 100), b"1 0 1 0\n")
            running.stdin.write(b"\x01")
            running.stdin.flush()
            self.assertEqual(os.read(running.stdout.fileno(), 100), b"2 0 - 0\n")
            running.stdin.close()
            self.assertEqual(running.wait(30), 0)

    def test_progress_at_a_terminal(self):
        """Shown from the first block on, which takes no half second."""
        Path("long.trace").write_bytes(program(ORACLE, "oracle", "generate", 1, "--n", 4, "--records", 40000, "--mix", "valid"))
        for words in (["replay", "--all"], ["record"]):
            code = f"import sys, lemidrosy.progress as p; p._FIRST = p._EVERY = 0; from lemidrosy.command import main; sys.exit(main({words + ['long.trace']}))"
            seen, status = typed(["-c", code], output="/dev/null")
            self.assertEqual(status, 1)
            self.assertRegex(seen, rb"\r[\d,]+ of 40,000 records, [\d,]+ a second, \d+ s left\x1b\[K\r")
            self.assertRegex(seen, rb"\r\x1b\[Klemidrosy %s: record " % words[0].encode())
            seen, status = typed(["-m", "lemidrosy", *words, "long.trace"])
            self.assertNotIn(b"a second", seen)

    def test_judge(self):
        for seed in range(many(400)):
            trace = program(ORACLE, "oracle", "generate", seed, "--mix", "foreign")
            expected = program(PROGRAMS, "judge", given=trace).decode()
            try:
                verdict = lemidrosy.judge(trace)
                said = "trackable\n" if verdict.trackable else f"breaks {verdict.near} {verdict.far}\n"
            except Refused as refusal:
                said = f"refused {refusal.number}\n"
            self.assertEqual(said, expected, seed)
        for seed in range(many(12)):
            trace = program(ORACLE, "oracle", "generate", seed, "--mix", "foreign")
            status, said = self.same("judge", (), trace)
            is_right = not refused(lemidrosy.judge, trace) and lemidrosy.judge(trace).trackable
            self.assertEqual((status, said.count("\n")), (0, 0) if is_right else (1, 1))
        self.prints("refused 14\n", "judge", EXAMPLE, status=1, says="record 9, recover 0: refused 14")
        self.prints("refused 17\n", "judge", status=1, given=b"\x02" + bytes(4 * 4097 + 3), says="refused 17")
        self.prints("refused 13\n", "judge", status=1, given=b"\x02" + bytes(4 * 4096 + 3), says="refused 13")

    def test_record(self):
        """What the proved program records; and each record that it says is refused, in words."""
        for seed in range(many(24)):
            trace = program(ORACLE, "oracle", "generate", seed, "--records", (2000, 30, 0)[seed % 3], "--mix", ("mixed", "valid", "damaged", "recovering")[seed % 4])
            words = [seed * 37 % 3000] if seed % 5 == 4 else []
            right = subprocess.run([PROGRAMS / "record", *map(str, words)], input=trace, capture_output=True, timeout=60)
            status, output, said = command("record", *(part for word in words for part in ("--bytes", word)), given=trace)
            self.assertEqual(output, right.stdout, seed)
            refusals = [tuple(map(int, re.findall(r"\d+", line))) for line in right.stderr.decode().splitlines()]
            self.assertEqual((status, len(said.splitlines())), (1 if refusals else 0, len(refusals)), seed)
            for line, (number, refusal) in zip(said.splitlines(), refusals):
                four = trace[4 * number - 3 :][:4] if number else b""
                where = f"record {number}, {list(text_of(io.BytesIO(trace[:1] + four)))[1]}: " if len(four) == 4 else ""
                self.assertTrue(line.startswith(f"lemidrosy record: {where}refused {refusal}: "), (seed, line, where))

    def test_record_ends(self):
        self.assertEqual(command("record", EXAMPLE)[1], EXAMPLE.read_bytes()[:-4])
        for word in ("", "x", "1048577", "-1", "9" * 5000):
            self.ends(2, "at most 1048576; see lemidrosy record --help", "record", f"--bytes={word}", "/no/such/file")
        self.ends(1, "refused 12", "record")
        self.ends(1, "refused 1:", "record", given=b"\x11")
        self.assertEqual(command("record", given=b"\x02abc")[:2], (1, b"\x02"))

    def test_what_is_recorded_stands_there(self):
        """What came in is recorded before more comes."""
        with subprocess.Popen([sys.executable, "-m", "lemidrosy", "record"], stdin=subprocess.PIPE, stdout=subprocess.PIPE) as running:
            for given, expected in (("02", "02"), ("20000001 4000", "20000001"), ("0001", "40000001")):
                running.stdin.write(bytes.fromhex(given))
                running.stdin.flush()
                self.assertEqual(os.read(running.stdout.fileno(), 100), bytes.fromhex(expected))
            running.stdin.close()
            self.assertEqual(running.wait(30), 0)

    def test_console(self):
        """What the proved program prints; and each call that it says is refused, in words."""
        for seed in range(many(60)):
            script = program(ORACLE, "oracle", "console", seed)
            script = script[: len(script) - seed % 8] if seed % 3 == 2 else script
            status, said = self.same("console", (), script)
            lines = list(text_of(io.BytesIO(script), "console"))
            refusals = [pair for pair in (tuple(map(int, line.split()[:2])) for line in program(PROGRAMS, "console", given=script).splitlines()) if pair[1]]
            self.assertEqual((status, len(said.splitlines())), (1 if refusals else 0, len(refusals)), seed)
            for line, (number, refusal) in zip(said.splitlines(), refusals):
                where = f"call {number}, {lines[number]}: " if 0 < number <= (len(script) - 1) // 8 else ""
                self.assertTrue(line.startswith(f"lemidrosy console: {where}refused {refusal}: "), (seed, line, where))

    def test_console_ends(self):
        script = b"".join(bytes_of(["console 3", "owner 0: checkpoint 0", "owner 0: checkpoint 1", "operator: start 17", "viewer: counts"]))
        Path("script").write_bytes(script)
        for words, given in ((("console", "script"), b""), (("console",), script), (("console", "-"), script)):
            status, output, said = command(*words, given=given)
            self.assertEqual((status, output), (1, b"1 0 1 1 0:0\n2 25\n3 1\n4 0 1 1 1\n"))
            self.assertEqual(said, "lemidrosy console: call 2, owner 0: checkpoint 1: refused 25: the caller may not do this (have the operator do it)\n"
                             "lemidrosy console: call 3, operator: start 17: refused 1: the number of processes is not from 1 to 16 (byte 4 of a start is the count of processes)\n")
        self.assertEqual(command("console", given=script[:9]), (0, b"1 0 1 1 0:0\n", ""))
        self.assertEqual(command("console", given=b"\x03"), (0, b"", ""))
        for given, printed, words in ((b"", "0 12\n", "console: refused 12: "), (b"console 3\n", "0 1\n", "'lemidrosy bytes' makes a script of text"), (b"\x03abc", "1 13\n", "in a script one to seven; was the file cut off?")):
            self.prints(printed, "console", given=given, status=1, says=words)
        self.ends(2, "unrecognized arguments: other; see lemidrosy", "console", "script", "other")
        status, output, said = command("console", given=b"\x02" + (b"\x02" + bytes(7)) * 9000)
        self.assertEqual((status, output.count(b" 25\n")), (1, 9000))
        self.assertEqual([line.split(": refused 25")[0] for line in said.splitlines()], [f"lemidrosy console: call {number}, viewer: checkpoint 0" for number in range(1, 9001)])

    def test_what_is_asked_is_answered(self):
        """A call's line stands there before more comes."""
        with subprocess.Popen([sys.executable, "-m", "lemidrosy", "console"], stdin=subprocess.PIPE, stdout=subprocess.PIPE, stderr=subprocess.DEVNULL) as running:
            for given, expected in (("02 0000", b""), ("000000000000", b"1 0 1 1 0:0\n"), ("0000000800000000 0000", b"2 0 1 1\n")):
                running.stdin.write(bytes.fromhex(given))
                running.stdin.flush()
                self.assertEqual(os.read(running.stdout.fileno(), 100) if expected else b"", expected)
            running.stdin.close()
            self.assertEqual((running.stdout.read(), running.wait(30)), (b"3 13\n", 1))

    @needs("merge")
    def test_merge(self):
        for seed in range(many(300)):
            number = int(program(ORACLE, "oracle", "halves", seed, "first", "second"))
            right = subprocess.run([PROGRAMS / "merge", "first", "second", str(number)], capture_output=True, timeout=60)
            try:
                merged, said = lemidrosy.merge(Path("first").read_bytes(), Path("second").read_bytes(), numbers.members(number)), b""
            except Refused as refusal:
                merged, said = b"", b"refused %d\n" % refusal.number
            self.assertEqual((merged, said), (right.stdout, right.stderr), seed)
            if seed < 12:
                status, said = self.same("merge", ("first", "second", number))
                self.assertEqual(status, 0 if right.stdout else 1)
                if right.stderr:
                    self.assertIn(right.stderr.decode().strip() + ":", said)
        self.assertEqual(started("merge", "first", "second", number)[1], right.stdout)
        self.ends(1, "refused 7", "merge", EXAMPLE, EXAMPLE, "9" * 5000)
        self.ends(1, "refused 7", "merge", EXAMPLE, EXAMPLE, "--processes", "2")
        self.ends(2, "SET", "merge", EXAMPLE, EXAMPLE, "x")
        self.ends(2, "SET", "merge", EXAMPLE, EXAMPLE)

    @needs("simulate")
    def test_simulate(self):
        for words in ((4, 10, 3000, 7), (4, "1-9", 300, 7), (1, 1, 1, 0), (16, 1000, 3000, 4294967295), (0, 1, 1, 1), (17, "1-3", 5, 1), (2, 0, 1, 1), (2, 1001, 1, 1),
                      (2, "5-4", 1, 1), (2, "1-1001", 1, 1), (2, 1, 0, 1), (2, 1, 30001, 1), (2, 4294967297, 1, 1), (10**40, 1, 1, 1), (2, "03-04", "010", "01")):
            status, said = self.same("simulate", words)
            self.assertEqual((status, said.count("\n")), (1, 1) if b"refused" in program(PROGRAMS, "simulate", *words) else (0, 0), words)
        draws = random.Random(5)
        for _ in range(many(100)):
            words = draws.randrange(1, 17), draws.randrange(1, 60), draws.randrange(1, 2000), draws.randrange(2**32)
            figures = lemidrosy.simulate(*words)
            expected = [int(line.split()[1]) for line in program(PROGRAMS, "simulate", *words).decode().splitlines()]
            self.assertEqual([figures.deliveries, figures.forced, figures.most_kept, figures.per_thousand, figures.remainder], expected)
        for words in ((4, 10, 3000), (4, "a", 1, 1), (4, "1-", 1, 1), (4, 1, 1, 4294967296), (4, 10, 30, 7, "--table"), (4, 10, 30, 7, "--plot", "p.svg"), (4, "1-2", 3, 7, "--table", "--plot", "p.svg")):
            self.ends(2, "lemidrosy simulate: ", "simulate", *words)

    @needs("simulate")
    def test_tables_and_plots(self):
        self.prints(
            """\
spacing  deliveries  forced  most kept  forced per thousand deliveries
      1       1,419       0          4                               0
      2       1,419     304          4                             214
""",
            "simulate", 4, "1-2", 3000, 7, "--table",
        )
        for spacings in ("1-40", "7-7", "990-1000", "1-300"):
            self.assertEqual(command("simulate", 4, spacings, 100, 7, "--plot", "plot.svg"), (0, b"", ""))
            self.assertEqual(list(outside(Path("plot.svg").read_text())), [])


def refused(call, *arguments):
    """Whether a call is refused."""
    try:
        call(*arguments)
    except Refused:
        return True
    return False


def typed(words, typing=b"", when=b"", output=None):
    """What the command shows at a terminal, and its status. `typing` is typed once it has shown `when`."""
    process, terminal = pty.fork()
    if process == 0:
        if output:
            os.dup2(os.open(output, os.O_WRONLY), 1)
        os.execv(sys.executable, [sys.executable, *words])
    seen, is_typed = b"", not typing
    while True:
        ready, _, _ = select.select([terminal], [], [], 30)
        try:
            block = os.read(terminal, 4096) if ready else b""
        except OSError:
            break
        if not block:
            break
        seen += block
        if when in seen and not is_typed:
            is_typed = True
            os.write(terminal, typing)
    _, status = os.waitpid(process, 0)
    os.close(terminal)
    return seen, os.waitstatus_to_exitcode(status)


class Ends(Case):
    """Files, streams, terminals and interrupts."""

    def test_files_that_cannot_be_read(self):
        for subcommand, more in (("text", ()), ("bytes", ()), ("explain", ()), ("line", ("--all",)), ("earliest", ("0:0",)), ("draw", ()), ("replay", ()), ("record", ()), ("console", ()), ("judge", ()), ("merge", (EXAMPLE, 1))):
            self.ends(3, "/no/such/file: No such file", subcommand, "/no/such/file", *more)
            self.ends(3, "/: Is a directory", subcommand, "/", *more)

    def test_outputs_that_cannot_be_written(self):
        for words in (("text", EXAMPLE), ("explain", EXAMPLE, 8), ("line", EXAMPLE, "--all", "--at", 8), ("earliest", EXAMPLE, "1:2", "--at", 8), ("draw", EXAMPLE, "--at", 8), ("record", EXAMPLE), ("console", EXAMPLE), ("judge", EXAMPLE)):
            for output, said in ((">/dev/full", "No space left"), (">&-", "Bad file descriptor")):
                line = " ".join([sys.executable, "-m", "lemidrosy", *map(str, words)])
                done = subprocess.run(["bash", "-c", f"exec {line} {output}"], capture_output=True, text=True)
                self.assertEqual(done.returncode, 3, (line, output, done.stderr))
                self.assertEqual(done.stderr.count("\n"), 1)
                self.assertIn(f"lemidrosy {words[0]}: standard output: {said}", done.stderr)

    def test_a_standard_error_that_cannot_be_written(self):
        """What is printed is the same, and so is the status."""
        Path("refused").write_bytes(b"\x02\x02" + bytes(7))
        for words in (("replay", EXAMPLE), ("record", EXAMPLE), ("console", "refused"), ("judge", EXAMPLE), ("line", EXAMPLE, "--all"), ("simulate", 0, 1, 1, 1)):
            status, output, said = command(*words)
            self.assertEqual((status, said.count("\n")), (1, 1), said)
            for errors in ("2>/dev/full", "2>&-"):
                line = " ".join([sys.executable, "-m", "lemidrosy", *map(str, words)])
                done = subprocess.run(["bash", "-c", f"exec {line} {errors}"], stdout=subprocess.PIPE)
                self.assertEqual((done.returncode, done.stdout), (status, output), (line, errors))

    def test_a_pipe_that_nobody_reads(self):
        line = f"{sys.executable} -m lemidrosy text /dev/zero | head -n 2; exit ${{PIPESTATUS[0]}}"
        done = subprocess.run(["bash", "-c", line], capture_output=True, text=True)
        self.assertEqual((done.stdout, done.stderr), ("processes 0\ncheckpoint 0\n", ""))
        self.assertEqual(done.returncode, 128 + signal.SIGPIPE)

    def test_an_interrupt(self):
        """It comes when the command has read something and waits for more. Where the tests run in the background it would be ignored."""
        for subcommand, given in (("bytes", b"processes 2\n"), ("console", b"\x02")):
            running = subprocess.Popen([sys.executable, "-m", "lemidrosy", subcommand], stdin=subprocess.PIPE, stdout=subprocess.PIPE, stderr=subprocess.PIPE,
                                       preexec_fn=lambda: signal.signal(signal.SIGINT, signal.SIG_DFL))
            running.stdin.write(given)
            running.stdin.flush()
            while int.from_bytes(fcntl.ioctl(running.stdin, termios.FIONREAD, bytes(4)), sys.byteorder):
                time.sleep(0.05)
            running.send_signal(signal.SIGINT)
            output, said = running.communicate(timeout=30)
            self.assertEqual((running.returncode, output, said), (130, b"", b""), subcommand)

    def test_at_a_terminal(self):
        """The trace is typed; the command says that it waits for it."""
        seen, status = typed(["-m", "lemidrosy", "bytes"], b"processes 65\n\x04", b"Ctrl-D")
        self.assertEqual(status, 0)
        self.assertIn(b"reading text from the terminal", seen)
        self.assertTrue(seen.endswith(b"A"), seen)

    def test_a_script_at_a_terminal(self):
        seen, status = typed(["-m", "lemidrosy", "console"], b"\n\x04", b"Ctrl-D")
        self.assertEqual((status, seen.count(b"refused")), (0, 0), seen)
        self.assertIn(b"reading a console script from the terminal", seen)


if __name__ == "__main__":
    unittest.main(argv=[sys.argv[0], *sys.argv[1:]], failfast=bool(os.environ.get("AT_ONCE")))
