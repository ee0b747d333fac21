"""The commands: each module has a `main`, which takes the words of a command line and gives the status."""

import functools
import os
import pathlib
import signal
import sys
import traceback

from ..descriptions import DescriptionError, shown_path
from ..programs import ProgramMissing
from ..solving import OutOfMemory, WrongAnswer

# The statuses of words that are not of the form, of an answer that cannot be written, of no program, and of a reader
# that went away: 128 and the number of the signal.
WORDS, WRITE_FAULT, MISSING = 2, 9, 69
CLOSED = 128 + signal.SIGPIPE
# The signals that ask for the end of a run: of a user, of another program, and of a terminal that is closed.
ENDING = (signal.SIGINT, signal.SIGTERM, signal.SIGHUP)


class Stopped(BaseException):
    """A signal asked for the end of the run."""

    def __init__(self, status):
        super().__init__(status)
        self.status = status


def say(name, text):
    """Writes a message of a command to standard error. Where this cannot be written, it is lost."""
    try:
        print(f"{name}: {text}", file=sys.stderr, flush=True)
    except OSError:
        pass


def command(name):
    """Makes a `main` of a function of words: no end of a run is a traceback."""

    def guard(body):
        @functools.wraps(body)
        def main(words=None):
            _set_streams()
            _set_signals()
            try:
                status = body(sys.argv[1:] if words is None else words)
                sys.stdout.flush()
                return status
            except DescriptionError as error:
                say(name, str(error))
                return error.status
            except ProgramMissing as error:
                say(name, str(error))
                return MISSING
            except BrokenPipeError:
                _drop_output()
                return CLOSED
            except OSError as error:
                _drop_output()
                where = "" if error.filename is None else f"{shown_path(error.filename)}: "
                say(name, f"{where}the answer cannot be written: {error.strerror or error}")
                return WRITE_FAULT
            except Stopped as stopped:
                _drop_output()
                return stopped.status
            except MemoryError:
                say(name, "out of memory")
                return OutOfMemory.status
            except Exception as error:
                _drop_output()
                say(name, f"{_told_fault(error)}: this is a fault of the tool: please keep the files and report it")
                return WrongAnswer.status

        return main

    return guard


def _told_fault(error):
    """An exception that nothing expects, on one line, with the place where it was raised."""
    *_, (frame, line) = traceback.walk_tb(error.__traceback__)
    place = f"{pathlib.Path(frame.f_code.co_filename).name}:{line}"
    return shown_path(f"{place}: {type(error).__name__}: {str(error)[:200]}")


def _set_streams():
    """Texts are UTF-8, and what is no UTF-8 of a path is written with backslashes. To read from standard input or to
    write to standard output fails where it is closed."""
    for descriptor, name in enumerate(("stdin", "stdout", "stderr")):
        stream = getattr(sys, name)
        if stream is None:
            # The lowest descriptor that is free is this one.
            os.open(os.devnull, os.O_RDONLY if name == "stdout" else os.O_WRONLY)
            stream = open(descriptor, "r" if name == "stdin" else "w", encoding="utf-8", closefd=False)
            setattr(sys, name, stream)
        if name != "stdin" and hasattr(stream, "reconfigure"):
            stream.reconfigure(encoding="utf-8", errors="backslashreplace")


def _set_signals():
    """The first signal that asks for the end raises Stopped, so that the programs that run are ended too."""

    def stop(number, _):
        for other in ENDING:
            signal.signal(other, signal.SIG_IGN)
        raise Stopped(128 + number)

    try:
        for number in ENDING:
            if signal.getsignal(number) is not signal.SIG_IGN:
                signal.signal(number, stop)
    except ValueError:
        # Signals belong to the first thread: a caller in another one has its own ways.
        pass


def _drop_output():
    """Leaves nothing that would be written at the end of the process."""
    try:
        os.dup2(os.open(os.devnull, os.O_WRONLY), sys.stdout.fileno())
    except (OSError, ValueError):
        pass
