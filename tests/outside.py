"""The case files of tests/outside, in the form that tests/outside/README.md tells."""
import pathlib

FOLDER = pathlib.Path(__file__).resolve().parent / "outside"


def cases(name):
    """Each case of a file: its number, and its values by their keys."""
    number, values = None, {}
    for line in [*(FOLDER / name).read_text().split("\n"), ""]:
        if line.startswith("#"):
            continue
        key, _, value = line.partition(" ")
        if key == "case":
            number = value
        elif key:
            assert number is not None and key not in values, line
            values[key] = value
        elif number is not None:
            yield number, values
            number, values = None, {}


def refusal(answer):
    """Number and place of a refusal, None of another answer."""
    word, *rest = answer.split(" ")
    return tuple(map(int, rest[:2])) if word == "refuse" else None
