"""Files of test cases, as crate casefile reads them, and what a test program must write.

A field is two bytes of length, the least significant first, and so many bytes. A case is a field of fields: its label first."""
import pathlib

CRATES = pathlib.Path(__file__).resolve().parent.parent / "crates"
MOST_BYTES = 65536  # the program reads no more of a file


def field(data):
    return len(data).to_bytes(2, "little") + bytes(data)


def number(value, width):
    return value.to_bytes(width, "little")


def refused(number, place):
    return f"refused {number} at {place}"


def hexed(data):
    return bytes(data).hex()


class Cases:
    """Cases with their answers, for one program."""

    def __init__(self, crate, name="cases"):
        self.crate, self.name, self.data, self.answers = CRATES / crate, name, b"", []

    def add(self, label, fields, answer):
        self.data += field(b"".join(map(field, [label.encode(), *fields])))
        self.answers.append(f"{label}: {answer}\n")

    def write(self):
        assert len(self.data) <= MOST_BYTES, len(self.data)
        (self.crate / "data").mkdir(exist_ok=True)
        (self.crate / "data" / self.name).write_bytes(self.data)
        return "".join(self.answers)
