"""What the checks of the tools share: numbers of each codec, those of one codec as another's, and one run that makes a file."""
import random

from lib import kinds
from lib.head import first_difference, run

RATE = 8000


def numbers(codec, count):
    """Numbers of a codec: its least and greatest, those about 0, and others."""
    random.seed(f"{codec} {count}")
    least = -(1 << kinds.width(codec) - 1)
    first = [least, -least - 1, 0, -1, 1, least + 1]
    drawn = first + [random.randint(least, -least - 1) for _ in range(count - len(first))]
    return kinds.kept(codec, drawn[:count])


def changed(one, other, found):
    """Numbers of one codec as those of another: multiplied by a power of two, or divided and rounded down."""
    old, new = kinds.width(one), kinds.width(other)
    return [x << new - old if new >= old else x >> old - new for x in found]


def wrong_run(program, words, out, err, status, made=None):
    """The faults of a run that makes one file at most, which is to hold these bytes."""
    name = made[0] if made else None
    wrong = run(program, words, b"", out, err, status, {f"./{name}"} if made else ())
    if made:
        try:
            with open(name, "rb") as file:
                wrong += first_difference(name, file.read(), made[1])
        except OSError as error:
            wrong.append(str(error))
    return wrong
