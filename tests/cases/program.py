"""Runs the program that is tested."""

import os
import select
import signal
import subprocess
import time

PATIENCE = 120

# the zone in which times of day are told, where a case says no other
os.environ["TZ"] = "UTC"


class Program:
    """The built program, run in one folder."""

    def __init__(self, path, folder):
        self.path = path
        self.folder = folder

    def run(self, *words, stdin=b"", before=(), **options):
        """Runs a command to its end, with its standard input, and answers its exit status and both outputs."""
        command = [*before, self.path, *words]
        ran = subprocess.run(command, input=stdin, cwd=self.folder, timeout=PATIENCE, capture_output=True, **options)
        return Outcome(ran.returncode, ran.stdout, ran.stderr)

    def good(self, *words, stdin=b""):
        """The standard output of a command that ends with status 0 and no fault."""
        outcome = self.run(*words, stdin=stdin)
        assert outcome.status == 0, f"{words}: {outcome}"
        assert outcome.errors == b"", f"{words}: {outcome}"
        return outcome.output

    def chosen(self, *words, stdin=b""):
        """The same of a listing by a choice. Exactly where a stored trace has no message that is chosen, it is told what it has."""
        outcome = self.run(*words, stdin=stdin)
        assert outcome.status == 0, f"{words}: {outcome}"
        numbered = [line for line in outcome.output.splitlines() if line[:1].isdigit() or line.startswith(b'{"n":')]
        shows = any(line.split()[1] != b"drop" and b',"kind":"drop",' not in line for line in (line + b" -" for line in numbered))
        told = b": no message is shown: it has " in outcome.errors
        assert told == (words[0] == "list" and not shows) and told == bool(outcome.errors), f"{words}: {outcome}"
        return outcome.output

    def refused(self, *words, stdin=b"", status=1, says, output=b""):
        """Runs a command that ends with this status and these outputs."""
        expected = Outcome(status, output, says.encode() + b"\n")
        same(self.run(*words, stdin=stdin), expected)

    def start(self, *words):
        """Starts a command, to be spoken to."""
        pipe = subprocess.PIPE
        return Running(subprocess.Popen([self.path, *words], cwd=self.folder, stdin=pipe, stdout=pipe, stderr=pipe, bufsize=0))


class Outcome:
    """How a command ended."""

    def __init__(self, status, output, errors):
        self.status = status
        self.output = output
        self.errors = errors

    def __eq__(self, other):
        return vars(self) == vars(other)

    def __repr__(self):
        return f"status {self.status}, output {shown(self.output)}, errors {shown(self.errors)}"


class Running:
    """A command that runs. At the end of a `with` it is killed where it still runs."""

    def __init__(self, process):
        self.process = process
        self.given = b""

    def __enter__(self):
        return self

    def __exit__(self, *_):
        if self.process.poll() is None:
            self.kill()
        for stream in (self.process.stdin, self.process.stdout, self.process.stderr):
            stream.close()

    def opens(self, first=b"\0"):
        """The line with which an import says that it is open, once this has come. What is written next begins with it."""
        self.write(first)
        self.given = first
        return self.line()

    def write(self, data):
        """Writes all of it."""
        assert data.startswith(self.given), f"{shown(data)} doesn't begin with {shown(self.given)}"
        left, self.given = memoryview(data)[len(self.given) :], b""
        while left:
            left = left[os.write(self.process.stdin.fileno(), left) :]

    def line(self):
        """The next line of its standard output, without its line feed."""
        found = bytearray()
        deadline = time.monotonic() + PATIENCE
        while not found.endswith(b"\n"):
            ready, _, _ = select.select([self.process.stdout], [], [], max(0, deadline - time.monotonic()))
            assert ready, f"no line came, only {shown(bytes(found))}"
            byte = os.read(self.process.stdout.fileno(), 1)
            assert byte, f"it ended: {shown(bytes(found))}, errors {shown(self.process.stderr.read())}"
            found += byte
        return bytes(found[:-1]).decode()

    def end(self):
        """Ends its input, and answers how it ended."""
        output, errors = self.process.communicate(timeout=PATIENCE)
        return Outcome(self.process.returncode, output, errors)

    def kill(self):
        """Kills it, as nothing can be done against, and answers what it had written."""
        self.process.send_signal(signal.SIGKILL)
        self.process.wait(PATIENCE)
        return self.process.stdout.read().decode()


def read_some(descriptor):
    """What comes next of a terminal or pipe."""
    ready, _, _ = select.select([descriptor], [], [], 10)
    assert ready, "nothing came"
    return os.read(descriptor, 65_536)


def read_as_much(descriptor, size):
    """What comes next of a terminal or pipe until it is so many bytes. A terminal may hand over a line in parts."""
    found = b""
    while len(found) < size:
        found += read_some(descriptor)
    return found


def read_to_end(descriptor):
    """All that is left of a terminal that nobody has open any more."""
    parts = []
    while True:
        try:
            part = os.read(descriptor, 65_536)
        except OSError:
            part = b""
        if not part:
            return b"".join(parts)
        parts.append(part)


def shown(data):
    """Bytes as a message shows them."""
    return repr(data if len(data) <= 400 else data[:400] + b"...")


def same(found, expected):
    """Fails unless both are equal."""
    assert found == expected, f"expected {brief(expected)}, found {brief(found)}"


def brief(value):
    return shown(value) if isinstance(value, bytes) else repr(value)[:800]
