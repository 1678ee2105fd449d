"""Cases of tests/rows: what the program answers to scripts over a store in memory, and to entry streams.

A row NAME is one case:

  NAME.script   the standard input of `sim`; or NAME.stream, that of `stream` in hexadecimal digits
  NAME.out      its standard output; `or` on a line parts several, of which one is written, and `...` on the first line
                of one stands for any lines before the others
  NAME.err      its standard error, else nothing
  NAME.status   its exit status, else 0
  NAME.each     lines `WORD = VALUE`: the row holds with each value, or number of `FIRST to LAST`, in the place of the
                word in its script, and with each combination where there are several words
"""

import itertools
import pathlib
import re

from program import same, shown

ROWS = pathlib.Path(__file__).resolve().parents[1] / "rows"


class Row:
    """A row as a case."""

    def __init__(self, path):
        self.path = path
        self.__name__ = path.stem

    def text(self, suffix, default=""):
        path = self.path.with_suffix(suffix)
        return path.read_text() if path.exists() else default

    def values(self):
        """The values of each word."""
        values = {}
        for line in self.text(".each").splitlines():
            word, _, value = line.partition(" = ")
            numbers = re.fullmatch(r"(\d+) to (\d+)", value)
            several = [str(number) for number in range(int(numbers[1]), int(numbers[2]) + 1)] if numbers else [value]
            values.setdefault(word, []).extend(several)
        return values

    def inputs(self):
        """The values in use, and the standard input with them."""
        values = self.values()
        for chosen in itertools.product(*values.values()):
            text = replaced(self.path.read_text(), dict(zip(values, chosen)))
            yield " ".join(chosen), bytes.fromhex(text) if self.path.suffix == ".stream" else text.encode()

    def __call__(self, program):
        command = "stream" if self.path.suffix == ".stream" else "sim"
        wanted = [one.removeprefix("or\n") for one in re.split(r"(?m)^(?=or\n)", self.text(".out"))]
        status, errors = int(self.text(".status", "0")), self.text(".err").encode()
        for chosen, data in self.inputs():
            outcome = program.run(command, stdin=data)
            assert any(is_told(outcome.output.decode(), one) for one in wanted), f"{chosen}: {shown(outcome.output)}"
            same((chosen, outcome.status, outcome.errors), (chosen, status, errors))


def replaced(text, values):
    """The text with these values in the places of their words, the longest word first."""
    words = "|".join(map(re.escape, sorted(values, key=len, reverse=True)))
    return re.sub(words, lambda word: values[word[0]], text) if words else text


def is_told(output, wanted):
    """Whether this is what is wanted, or ends with it."""
    if wanted.startswith("...\n"):
        return ("\n" + output).endswith(wanted.removeprefix("..."))
    return output == wanted


CASES = [Row(path) for path in sorted(ROWS.iterdir()) if path.suffix in (".script", ".stream")]
