"""The programs interp and circuit where their standard streams are closed, full or endless, and with little memory."""

import os
import random
import resource
import subprocess
import tempfile

from bench import make_files
from bench.make_circuits import CIRCUITS
from tests.harness import EXAMPLES, Ended, Test, description, installed, program, run
from tests.made_descriptions import random_cube, valued

MOST_READ = 4_194_305
POINTS = description(2, 1, "fr", ["11 1", "00 0"])
ANSWER = "f1 = x2\n"
TOLD = "output 1: 1 terms, 0 basis\n"

READ_FAULT = Ended(8, "", "interp: read fault\n")
WRITE_FAULT = Ended(9, "", "interp: write fault\n")
TOO_LONG = Ended(10, "", "interp: longer than 4194304 bytes\n")
NO_MEMORY = Ended(7, "", "interp: out of memory\n")


def closing(*descriptors):
    """What a child does before the program starts."""
    return lambda: [os.close(fd) for fd in descriptors]


class Hostile(Test):
    """Streams that do not serve, in mode anf."""

    def ends(self, what, wanted, text=None, **how):
        with self.case(what):
            self.assertEqual(run([program("interp"), "anf"], text, **how), wanted)

    def test_input(self):
        """Nothing that can be read, and nothing at all."""
        self.ends("closed", READ_FAULT, preexec_fn=closing(0))
        folder = os.open(EXAMPLES, os.O_RDONLY)
        self.ends("a folder", READ_FAULT, stdin=folder)
        os.close(folder)
        written = os.open(os.devnull, os.O_WRONLY)
        self.ends("open for writing alone", READ_FAULT, stdin=written)
        os.close(written)
        self.ends("empty", Ended(3, "", "interp: line 0: NoSize\n"), "")

    def test_long_input(self):
        """Input without an end: a pipe, and a file, whose place tells how much was read. Then the limit itself."""
        with subprocess.Popen([installed("yes"), "11 1"], stdout=subprocess.PIPE, stderr=subprocess.DEVNULL) as endless:
            self.ends("endless lines", TOO_LONG, stdin=endless.stdout)
            endless.stdout.close()
        with tempfile.TemporaryFile() as file:
            file.truncate(2**33)
            self.ends("8 GiB", TOO_LONG, stdin=file)
            with self.case("bytes read of 8 GiB"):
                self.assertEqual(os.lseek(file.fileno(), 0, os.SEEK_CUR), MOST_READ)
        self.ends("as long as may be", Ended(3, "", "interp: line 1: BadByte\n"), b"\0" * (MOST_READ - 1))
        self.ends("a byte longer", TOO_LONG, b"\0" * MOST_READ)

    def test_output(self):
        """Output that takes nothing, and a reader that has gone."""
        self.ends("closed", WRITE_FAULT, POINTS, preexec_fn=closing(1))
        with open("/dev/full", "wb") as full:
            self.ends("full", WRITE_FAULT, POINTS, stdout=full)
        read_end, write_end = os.pipe()
        os.close(read_end)
        self.ends("without a reader", WRITE_FAULT, POINTS, stdout=write_end)
        os.close(write_end)

    def test_errors(self):
        """Standard error that takes nothing: the status and the answer stay."""
        self.ends("closed", Ended(0, ANSWER, ""), POINTS, preexec_fn=closing(2))
        with open("/dev/full", "wb") as full:
            self.ends("full", Ended(0, ANSWER, ""), POINTS, stderr=full)
            self.ends("full, and no answer", Ended(3, "", ""), "", stderr=full)
            self.ends("both outputs full", Ended(9, "", ""), POINTS, stdout=full, stderr=full)
        self.ends("all streams closed", Ended(8, "", ""), preexec_fn=closing(0, 1, 2))
        self.ends("all streams as they should be", Ended(0, ANSWER, TOLD), POINTS)


class Circuits(Test):
    """The same of circuit."""

    def ends(self, what, wanted, text=None, **how):
        with self.case(what):
            self.assertEqual(run([program("circuit"), "anf"], text, **how), wanted)

    def test_streams(self):
        text = (EXAMPLES / "half_adder_gates.aag").read_bytes()
        read_fault, write_fault = Ended(8, "", "circuit: read fault\n"), Ended(9, "", "circuit: write fault\n")
        too_long = Ended(10, "", "circuit: longer than 16777216 bytes\n")
        self.ends("closed input", read_fault, preexec_fn=closing(0))
        folder = os.open(EXAMPLES, os.O_RDONLY)
        self.ends("a folder", read_fault, stdin=folder)
        os.close(folder)
        with open("/dev/zero", "rb") as endless:
            self.ends("endless input", too_long, stdin=endless)
        self.ends("as long as may be", Ended(3, "", "circuit: byte 0: NoFormat\n"), b"\0" * 2**24)
        self.ends("a byte longer", too_long, b"\0" * (2**24 + 1))
        self.ends("closed output", write_fault, text, preexec_fn=closing(1))
        with open("/dev/full", "wb") as full:
            self.ends("full output", write_fault, text, stdout=full)
            self.ends("full error, and no answer", Ended(3, "", ""), b"", stderr=full)
        whole = run([program("circuit"), "anf"], text)
        self.assertEqual((whole.status, whole.err), (0, ""))
        self.ends("closed error", whole, text, preexec_fn=closing(2))

    def test_memory(self):
        """With less and less room in the address space: the whole answer, or status 7 and nothing else."""
        text = CIRCUITS["shifter_32"]().binary()
        words = [program("circuit"), "anf", "--nodes", "16"]
        whole = run(words, text)
        self.assertEqual(whole.status, 0)
        met = set()
        for limit in range(2**20, 2**25, 2**19):
            how = {"preexec_fn": lambda size=limit: resource.setrlimit(resource.RLIMIT_AS, (size, size))}
            ended = run(words, text, **how)
            with self.case(f"{limit} bytes"):
                if ended.status >= 0 and ended.status != 127:
                    met.add(ended.status)
                    self.assertIn(ended, (whole, Ended(7, "", "circuit: out of memory\n")))
        self.assertEqual(met, {0, 7})


class Memory(Test):
    """An address space without room for the table of nodes, and one with room for a table at a time."""

    # Bases that need between 2^18 and 2^19 nodes, as is guessed.
    BASES = description(20, 1, "fr", valued(random.Random(1), 400, 20, 1))

    # Cubes that need between 2^19 and 2^20 nodes: tables of 256 KiB and of 4 MiB are filled in vain.
    MANY_CUBES = make_files.cubes(300, 16, 4, 6, 7)

    # Cubes of three literals, so many that hardly a point is left: 2^14 slots suffice.
    CUBES = description(20, 1, "f", [(random_cube(random.Random(seed), 20, 3), "1") for seed in range(300)])

    def solve(self, mode, text, bits=19, limit=None):
        """A run with an address space of so many MiB. While a table is made it takes twice its size."""
        how = {}
        if limit is not None:
            size = limit * 2**20
            how = {"preexec_fn": lambda: resource.setrlimit(resource.RLIMIT_AS, (size, size))}
        return run([program("interp"), mode, "--nodes", bits], text, **how)

    def test_tables(self):
        with self.case("32 MiB for a table of 16 MiB"):
            self.assertEqual(self.solve("anf", self.MANY_CUBES, 20, 32), NO_MEMORY)
        whole = self.solve("anf", self.MANY_CUBES, 20)
        self.assertEqual(whole.status, 0)
        with self.case("48 MiB for tables of 4 and of 16 MiB, one after the other"):
            self.assertEqual(self.solve("anf", self.MANY_CUBES, 20, 48), whole)
        whole = self.solve("basis", self.BASES)
        self.assertEqual(whole.status, 0)
        with self.case("32 MiB for a smaller table than the greatest, of 128 MiB"):
            self.assertEqual(self.solve("basis", self.BASES, 23, 32), whole)

    def test_little_in_many_words(self):
        """Cubes that need few nodes take little more room by the default limit than by a small one."""
        whole = self.solve("anf", self.CUBES)
        self.assertEqual(whole.status, 0)
        least = next(limit for limit in range(4, 64) if self.solve("anf", self.CUBES, 15, limit) == whole)
        with self.case(f"a MiB more than {least}, with which a table of 512 KiB can be made"):
            self.assertEqual(self.solve("anf", self.CUBES, limit=least + 1), whole)
