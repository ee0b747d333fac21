"""Streams of files through batch: each block is what interp answers to this file alone, and the streams' faults.

A stream is cut here again, by lines, and interp is run on each piece. Then the limits of a file and of a stream, the
words, want of memory at each allocation, each read and write that fails, is short or is interrupted, and a system that
refuses threads, all of them or one. Where GNU parallel is installed a stream is spread over processes, and over a
second host, which is a network namespace of the test's own, where one can be made.
"""

import concurrent.futures
import os
import pathlib
import random
import resource
import select
import signal
import subprocess
import tempfile
import time
import unittest

from tests.harness import ALL, EXAMPLES, USAGE, Ended, Fault, Test, description, faults, installed, program, run
from tests.made_descriptions import random_cube, random_rows, shared_out

MOST_FILE = 4_194_304
MOST_STREAM = 67_108_864

POINTS = description(2, 1, "fr", ["11 1", "00 0"], end=None)
CONTRADICTION = description(2, 1, "fr", ["1- 1", "-1 0"], end=None)

# Streams by hand, and the blocks that are due in mode anf.
STREAMS = {
    "a file, one that contradicts itself, and one without an end": (
        f"{POINTS}.e\n{CONTRADICTION}.e\n{POINTS}",
        "file 1 0\nf1 = x2\nfile 2 4\nfile 3 0\nf1 = x2\n",
    ),
    "nothing": ("", ""),
    "blank lines and comments": ("\n \t\r\n# no file\n\n", ""),
    "a file, then blank lines and comments": (f"{POINTS}.e\n\n# the end\n \n", "file 1 0\nf1 = x2\n"),
    "lines with a carriage return": (f"{POINTS}.e\n".replace("\n", "\r\n") * 2, 2 * "file {} 0\nf1 = x2\n"),
    "an end behind blanks": (f"{POINTS} \t.e\n{POINTS}\t.end # so\n", 2 * "file {} 0\nf1 = x2\n"),
    "an end with more words": (f"{POINTS}.e of file\n{POINTS}", 2 * "file {} 0\nf1 = x2\n"),
    "no end of the last line": (f"{POINTS}.e\n{POINTS}.e", 2 * "file {} 0\nf1 = x2\n"),
    "words that are no end": (f"{POINTS}#.e\n.ending\n.e\n{POINTS}", 2 * "file {} 0\nf1 = x2\n"),
    "ends alone": (".e\n.end\n.e", "file {} 3\n" * 3),
}

# The most allocations, reads and writes that are tried in one run.
MOST_CALLS = 400

# A run with calls that fail takes no longer than so many seconds; one that waits for a thread that does not come would.
LONGEST = 30

# So many small files take at most a fifth of what a loop over interp takes.
SMALL_FILES = 400
SHARE = 0.2


def numbered(blocks):
    """The blocks with their numbers, from 1, in place of braces."""
    count = blocks.count("file {} ")
    return blocks.format(*range(1, count + 1)) if count else blocks


def is_end(line):
    words = line.split("#")[0].split()
    return words[:1] in ([".e"], [".end"])


def files_of(stream):
    """The pieces of a stream, each up to and with a line that ends a file."""
    files, piece = [], []
    for line in stream.splitlines(keepends=True):
        piece.append(line)
        if is_end(line):
            files.append("".join(piece))
            piece = []
    if any(line.split("#")[0].strip() for line in piece):
        files.append("".join(piece))
    return files


def blocks_of(stream, words):
    """What is due: the status and the text of interp for each file alone."""
    blocks = []
    for number, text in enumerate(files_of(stream), 1):
        ended = run([program("interp"), *words], text)
        blocks.append(f"file {number} {ended.status}\n{ended.out}")
    return "".join(blocks)


def random_file(draws):
    """A small file of one of several kinds, of which some are refused."""
    inputs, outputs = draws.randint(1, 9), draws.randint(1, 3)
    kind = draws.choice(["f", "fd", "fr", "fdr", None, "x"])
    if draws.random() < 0.5:
        rows = random_rows(draws, inputs, outputs, 6)
    else:
        fixed = [draws.randint(1, inputs) for _ in range(draws.randint(1, 6))]
        rows = [(random_cube(draws, inputs, count), "1" * outputs) for count in fixed]
    return description(inputs, outputs, kind, rows, end=draws.choice([".e", ".end", " .e # end"]))


def random_stream(draws, count):
    return "".join(draws.choice(["", "\n", "# between\n"]) + random_file(draws) for _ in range(count))


def padded(size):
    """A file of so many bytes."""
    rest = size - len(f"{POINTS}#\n.e\n")
    return f"{POINTS}#{'x' * rest}\n.e\n"


class Batches(Test):
    """Blocks, in the modes anf and basis."""

    def test_streams(self):
        for what, (stream, blocks) in STREAMS.items():
            with self.case(what):
                self.assertEqual(run([program("batch"), "anf"], stream), Ended(0, numbered(blocks), ""))

    def test_each_file_alone(self):
        draws = random.Random(7)
        streams = [random_stream(draws, 25) for _ in range(12)]
        streams.append("".join(path.read_text() + "\n.e\n" for path in sorted(EXAMPLES.glob("*.pla"))))
        words = [["anf"], ["basis"], ["anf", "--terms", "3"], ["basis", "--nodes", "12", "--workers", "4"]]
        trials = [(stream, words[place % len(words)]) for place, stream in enumerate(streams)]
        with concurrent.futures.ThreadPoolExecutor(os.cpu_count()) as pool:
            due = pool.map(lambda trial: blocks_of(*trial), trials)
            for (stream, asked), blocks in zip(trials, due):
                with self.case(f"{len(stream)} bytes, {' '.join(asked)}"):
                    self.assertEqual(run([program("batch"), *asked], stream), Ended(0, blocks, ""))

    def test_words(self):
        for words in ("", "check", "gen", "gen --seed 1", "anf basis", "anf --workers 0", "anf --nodes", "solve"):
            with self.case(words or "no words"):
                self.assertEqual(run([program("batch"), *words.split()], POINTS), Ended(2, "", USAGE["batch"]))

    def test_an_order(self):
        with self.case("an order of the inputs, which one file does not have"):
            stream = f"{POINTS}.e\n{description(3, 1, 'fr', ['111 1'], end=None)}"
            ended = run([program("batch"), "anf", "--order", "x2,x1"], stream)
            self.assertEqual(ended, Ended(0, "file 1 0\nf1 = x1\nfile 2 12\n", ""))

    def test_limits(self):
        block = "file {} 0\nf1 = x2\n"
        with self.case("a file as long as may be, and one a byte longer"):
            ended = run([program("batch"), "anf"], padded(MOST_FILE) + padded(MOST_FILE + 1) + POINTS)
            self.assertEqual(ended, Ended(0, "file 1 0\nf1 = x2\nfile 2 10\nfile 3 0\nf1 = x2\n", ""))
        longest = padded(MOST_FILE) * (MOST_STREAM // MOST_FILE)
        with self.case("a stream as long as may be"):
            whole = numbered(block * (MOST_STREAM // MOST_FILE))
            self.assertEqual(run([program("batch"), "anf"], longest), Ended(0, whole, ""))
        with self.case("and a byte longer"):
            ended = run([program("batch"), "anf"], f"{longest}\n")
            self.assertEqual((ended.status, ended.err), (10, "batch: longer than 67108864 bytes\n"))
            self.assertTrue(whole.startswith(ended.out))
        with self.case("and no output that takes it"), open("/dev/full", "wb") as full:
            ended = run([program("batch"), "anf"], f"{longest}\n", stdout=full)
            self.assertEqual((ended.status, ended.err), (10, "batch: longer than 67108864 bytes\n"))

    def test_memory(self):
        """One file and a buffer are held, and four files wait: not the stream."""
        stream = padded(MOST_FILE // 4) * 60
        limit = 48 * 2**20
        with self.case("a stream of 60 MiB in 48 MiB of address space"):
            how = {"preexec_fn": lambda: resource.setrlimit(resource.RLIMIT_AS, (limit, limit))}
            self.assertEqual(run([program("batch"), "anf"], stream, **how).status, 0)

    def test_a_block_before_the_stream_ends(self):
        """The block of a file is written when the file was read, whatever comes behind it."""
        with self.case("a pipe that stays open"):
            with subprocess.Popen([program("batch"), "anf"], stdin=subprocess.PIPE, stdout=subprocess.PIPE) as child:
                child.stdin.write(f"{POINTS}.e\n".encode())
                child.stdin.flush()
                self.assertTrue(select.select([child.stdout], [], [], LONGEST)[0])
                self.assertEqual(child.stdout.read(len("file 1 0\nf1 = x2\n")), b"file 1 0\nf1 = x2\n")
                child.stdin.close()
                self.assertEqual(child.stdout.read(), b"")

    def test_time(self):
        """A loop over interp makes a process for each file."""
        stream = f"{POINTS}.e\n" * SMALL_FILES
        begin = time.monotonic()
        whole = run([program("batch"), "anf"], stream)
        took = time.monotonic() - begin
        begin = time.monotonic()
        for _ in range(SMALL_FILES):
            run([program("interp"), "anf"], POINTS)
        with self.case(f"{SMALL_FILES} files"):
            self.assertEqual(whole, Ended(0, numbered("file {} 0\nf1 = x2\n" * SMALL_FILES), ""))
            self.assertLess(took, SHARE * (time.monotonic() - begin))


class Faults(Test):
    """Calls that fail, one after the other, on a stream of four files, or of some hundred."""

    FILES = f"{POINTS}.e\n{CONTRADICTION}.e\n{POINTS}.e\n{POINTS}.e\n"

    def setUp(self):
        faults()
        self.words = [program("batch"), "anf"]
        self.take(self.FILES)

    def take(self, stream):
        """Makes this the stream."""
        self.stream = stream
        self.whole = run(self.words, stream)
        self.assertEqual(self.whole.status, 0)

    def run_with(self, fault, **how):
        """Runs the words on the stream, and answers how this ended and whether a call was met."""
        return faults().run(self.words, self.stream, fault, **how, timeout=LONGEST)

    def fail_each(self, call, fd, how, is_right):
        """Answers how many calls there are."""
        for number in range(1, MOST_CALLS):
            ended, was_met = self.run_with(Fault(call, fd, number, number, how))
            if not was_met:
                self.assertEqual(ended, self.whole)
                return number - 1
            with self.case(f"{call} {number} {how}"):
                self.assertTrue(is_right(ended), ended)
        raise AssertionError(f"more than {MOST_CALLS} calls of {call}")

    def is_front(self, ended, status, line):
        return (ended.status, ended.err) == (status, line) and self.whole.out.startswith(ended.out)

    def is_whole(self, ended):
        return ended == self.whole

    def test_memory(self):
        """Each allocation in turn. Some are made for the second thread, which then does not come."""
        is_right = lambda ended: self.is_whole(ended) or self.is_front(ended, 7, "batch: out of memory\n")
        self.assertGreater(self.fail_each("alloc", 0, "fail", is_right), 20)

    def test_words_are_read_once(self):
        """A file more takes fewer calls for memory than reading the words does, and a file that is refused takes fewer
        than half of these."""
        count = lambda words, stream: faults().count(words, stream, Fault("alloc", 0, 1, ALL, "pass"))[1]
        of_words = count([program("batch"), "gen"], "")
        more = 100
        for what, file, most in (("answered", f"{POINTS}.e\n", of_words), ("refused", ".e\n", of_words // 2)):
            with self.case(f"a file that is {what}"):
                of_files = count(self.words, file * (more + 1)) - count(self.words, file)
                self.assertLess(of_files, more * most)

    def test_reads(self):
        """Between the reads blocks are written."""
        self.take(self.FILES * 100)
        is_right = lambda ended: self.is_front(ended, 8, "batch: read fault\n")
        self.assertGreater(self.fail_each("read", 0, "fail", is_right), 3)
        self.fail_each("read", 0, "interrupt", self.is_whole)
        self.fail_each("read", 0, "short", self.is_whole)
        with self.case("one byte at a time"):
            self.assertEqual(self.run_with(Fault("read", 0, 1, ALL, "short")), (self.whole, True))

    def test_writes(self):
        is_right = lambda ended: self.is_front(ended, 9, "batch: write fault\n") and ended.out != self.whole.out
        self.assertGreater(self.fail_each("write", 1, "fail", is_right), 3)
        self.fail_each("write", 1, "interrupt", self.is_whole)
        self.fail_each("write", 1, "short", self.is_whole)
        with self.case("one byte at a time"):
            self.assertEqual(self.run_with(Fault("write", 1, 1, ALL, "short")), (self.whole, True))

    def test_a_read_and_a_write(self):
        """What stops the reading is told."""
        with self.case("a read fault and no output that takes anything"), open("/dev/full", "wb") as full:
            ended = self.run_with(Fault("read", 0, 2, 2, "fail"), stdout=full)
            self.assertEqual(ended, (Ended(8, "", "batch: read fault\n"), True))

    def test_the_line(self):
        """The line on standard error is lost, and the status stays."""
        ended, was_met = faults().run([program("batch"), "gen"], "", Fault("write", 2, 1, ALL, "fail"))
        with self.case("usage"):
            self.assertEqual((was_met, ended), (True, Ended(2, "", "")))

    def test_threads(self):
        """Where no thread comes, or one of the first does not, the text is the same; so a long stream ends too."""
        for line, threads in (("anf", 1), ("anf --workers 4", 3), ("basis --workers 4", 1)):
            self.words = [program("batch"), *line.split()]
            self.take(self.FILES * 500)
            for first, last in [(1, ALL), (1, 1), (2, 2), (3, 3)]:
                with self.case(f"{line} without the threads from {first} to {last}"):
                    ended, was_met = self.run_with(Fault("thread", 0, first, last, "fail"))
                    self.assertEqual(ended, self.whole)
                    self.assertTrue(was_met or first > threads)

    def test_one_thread_that_fails(self):
        """Where no thread comes, faults end as they do otherwise."""
        with self.case("a write fault"), open("/dev/full", "wb") as full:
            ended = self.run_with(Fault("thread", 0, 1, ALL, "fail"), stdout=full)
            self.assertEqual(ended, (Ended(9, "", "batch: write fault\n"), True))


# What docs/USES.md shows: parts of a stream that are cut at lines `.e`, and the blocks numbered again.
SPREAD = r"parallel --pipe --recend '\n.e\n' --block 2k -k {hosts} '{batch} anf' < {stream} | awk '{renumber}'"
RENUMBER = "/^file [0-9]+ [0-9]+$/ { $2 = ++n } 1"

# A second host: a network namespace, and the addresses at both ends of its link.
HOST = f"batch{os.getpid()}"
HERE, THERE, PORT = "10.213.77.1", "10.213.77.2", "2222"


class Host:
    """A network namespace with a server of ssh and a key of its own; without the rights to make it a test is skipped."""

    def __init__(self, folder):
        self.folder = pathlib.Path(folder)
        for name in ("ip", "ssh", "ssh-keygen", "sshd"):
            installed(name)
        self.link, self.end = f"{HOST}a"[-15:], f"{HOST}b"[-15:]

    def call(self, *words):
        """Does one thing that needs rights."""
        ended = run(words)
        if ended.status != 0:
            raise unittest.SkipTest(f"no second host: {' '.join(map(str, words))}: {ended.err.strip()}")

    def inside(self, *words):
        self.call("ip", "netns", "exec", HOST, *words)

    def start(self):
        """Makes the host, and answers how GNU parallel names it."""
        self.call("ip", "netns", "add", HOST)
        self.call("ip", "link", "add", self.link, "type", "veth", "peer", "name", self.end, "netns", HOST)
        self.call("ip", "addr", "add", f"{HERE}/30", "dev", self.link)
        self.call("ip", "link", "set", self.link, "up")
        self.inside("ip", "link", "set", "lo", "up")
        self.inside("ip", "addr", "add", f"{THERE}/30", "dev", self.end)
        self.inside("ip", "link", "set", self.end, "up")
        for name in ("host", "key"):
            self.call("ssh-keygen", "-q", "-t", "ed25519", "-N", "", "-f", self.folder / name)
        pathlib.Path("/run/sshd").mkdir(exist_ok=True)
        settings = {
            "Port": PORT,
            "ListenAddress": THERE,
            "HostKey": self.folder / "host",
            "AuthorizedKeysFile": self.folder / "key.pub",
            "StrictModes": "no",
            "UsePAM": "no",
            "PidFile": self.folder / "pid",
        }
        (self.folder / "config").write_text("".join(f"{name} {value}\n" for name, value in settings.items()))
        self.inside(installed("sshd"), "-f", self.folder / "config")
        keys = f"-i {self.folder / 'key'} -o StrictHostKeyChecking=no -o UserKnownHostsFile=/dev/null"
        login = f"ssh -q -p {PORT} {keys} root@{THERE}"
        for _ in range(50):
            if run([*login.split(), "true"]).status == 0:
                return login
            time.sleep(0.1)
        raise unittest.SkipTest("no second host: its server does not answer")

    def stop(self):
        if (self.folder / "pid").exists():
            os.kill(int((self.folder / "pid").read_text()), signal.SIGTERM)
        run(["ip", "netns", "del", HOST])
        run(["ip", "link", "del", self.link])


class Spread(Test):
    """A stream over several processes, and over a second host."""

    def setUp(self):
        installed("parallel")
        draws = random.Random(3)
        files = (description(5, 1, "fr", list(shared_out(draws, 6, 5, 1))) for _ in range(300))
        self.stream = "".join(files)
        self.whole = run([program("batch"), "anf"], self.stream)
        self.assertEqual(self.whole.status, 0)
        folder = tempfile.TemporaryDirectory()
        self.addCleanup(folder.cleanup)
        self.folder = folder.name

    def spread(self, hosts=""):
        """Runs what docs/USES.md shows, and answers how this ended."""
        path = pathlib.Path(self.folder) / "stream"
        path.write_text(self.stream)
        told = {"hosts": hosts, "batch": program("batch"), "stream": path, "renumber": RENUMBER}
        return run(["bash", "-o", "pipefail", "-c", SPREAD.format(**told)], env={**os.environ, "HOME": self.folder})

    def test_processes(self):
        with self.case("300 files in parts"):
            self.assertEqual(self.spread(), self.whole)

    def test_a_second_host(self):
        host = Host(self.folder)
        self.addCleanup(host.stop)
        login = host.start()
        with self.case("300 files here and there"):
            self.assertEqual(self.spread(f"-S '2/{login}' -S 2/:"), self.whole)
        with self.case("there alone"):
            self.assertEqual(self.spread(f"-S '2/{login}'"), self.whole)
