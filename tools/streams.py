"""What the tools for people share: files and standard streams read and written, the words of a command line, and programs for x86-64 run.

Whatever is missing, closed or full, a tool says so in one line and ends with its own status; nothing ends in a traceback.
"""
import getopt
import os
import re
import subprocess
import sys

ROOT = os.path.dirname(os.path.dirname(os.path.abspath(__file__)))
# Names standard input, or standard output.
STANDARD = "-"
MOST_SHOWN = 60
INTERRUPTED = 130


class Unusable(Exception):
    """Something that a tool can't work with. The message is for its user."""


class Lost(Exception):
    """Output that can't be written. The message is for the user."""


# ---- reading and writing


def opened(name):
    """A file, or standard input, to read bytes from."""
    if name != STANDARD:
        return open(name, "rb")
    if sys.stdin is None:
        raise Unusable("standard input is closed")
    if sys.stdin.buffer.closed:
        raise Unusable("standard input can only be read once")
    return sys.stdin.buffer


def taken(name, take):
    """What `take` makes of an open file."""
    try:
        with opened(name) as file:
            return take(file)
    except OSError as error:
        raise Unusable(f"{'standard input' if name == STANDARD else name}: {error.strerror}") from None


def read(name, most):
    """The bytes of a file, at most so many, so that a file without an end does no harm."""
    return taken(name, lambda file: file.read(most))


def created(name):
    """A file, or standard output, to write bytes to. Python's own standard output is left alone: what that can't write it tries once more, and
    complains, when the tool ends."""
    if name != STANDARD:
        return open(name, "wb")
    if sys.stdout is None:
        raise Lost("standard output is closed")
    return open(sys.stdout.fileno(), "wb", closefd=False)


def write(name, parts):
    """Writes bytes, which come in parts, and sees to it that they got there."""
    try:
        with created(name) as file:
            file.writelines(parts)
    except OSError as error:
        raise Lost(f"{'standard output' if name == STANDARD else name}: {error.strerror}") from None


def write_text(text):
    """Writes text to standard output."""
    write(STANDARD, [text.encode()])


def quoted(content):
    """Bytes, fit for a terminal whatever they are; of a line without its line feed."""
    text = content.rstrip(b"\n").decode("latin-1")
    return ascii(text[:MOST_SHOWN]) + (" ..." if len(text) > MOST_SHOWN else "")


# ---- a tool's words, and its end


def words_of(arguments, names):
    """The options of a command line, and its other words. A name that ends in `=` is of an option with a value."""
    try:
        options, words = getopt.gnu_getopt(arguments, "h", ["help", *names])
    except getopt.GetoptError as error:
        raise Unusable(f"{error}; see --help") from None
    return {name.lstrip("-"): value for name, value in options}, words


def asks_for_help(options):
    return "help" in options or "h" in options


def number_of(option, word):
    """The number that an option has."""
    if not re.fullmatch("[0-9]{1,13}", word):
        raise Unusable(f"--{option} wants a number of at most 13 digits, and not {ascii(word)}")
    return int(word)


def tell(tool, message):
    """A line on standard error, where there is one."""
    try:
        if sys.stderr is not None:
            print(f"{tool}: {message}", file=sys.stderr, flush=True)
    except OSError:
        pass


def finished(tool, main, unusable, lost):
    """Runs a tool on its words, and gives its exit status; two statuses are for what went wrong with files."""
    try:
        return main(sys.argv[1:])
    except (Unusable, OSError) as error:
        tell(tool, error)
        return unusable
    except Lost as error:
        tell(tool, error)
        return lost
    except KeyboardInterrupt:
        return INTERRUPTED


# ---- programs for x86-64


def in_root(path):
    """A path of the tree, wherever the tool was called."""
    return os.path.join(ROOT, path)


def x86(*words):
    """What tools/x86 says to some words."""
    try:
        said = subprocess.run([in_root("tools/x86"), *words], capture_output=True, text=True)
    except OSError as error:
        raise Unusable(f"tools/x86: {error.strerror}") from None
    if said.returncode != 0:
        raise Unusable(f"tools/x86 {words[0]} failed: {said.stderr.strip()[-300:]}")
    return said.stdout


def program(path, remedy):
    """The words that a program of the tree is started with."""
    if not os.access(in_root(path), os.X_OK):
        raise Unusable(f"{path} is not there: {remedy}")
    return [*x86("words").splitlines(), in_root(path)]
