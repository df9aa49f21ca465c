"""Dialogic VOX, as the checks know it beside the program: the numbers of bytes and the bytes of numbers. It follows "Dialogic ADPCM
Algorithm" (Application Note 1366): IMA's rule for one code over 49 of its steps, numbers of 12 bits, two codes a byte, the first one in the
high half. A number of 16 bits is 16 times one of 12; which code a writer chooses is chosen as the program's manual says it. Each part of a
step is rounded down, as in IMA; sox and ffmpeg round the sum of the parts, which moves a predictor by 0 to 2 more."""
from lib.blocks import CHANGES, STEPS

START = 0, 0


def parts(step, code):
    """How far a code moves the predictor: each part of the step by itself."""
    return (step >> 3) + (step if code & 4 else 0) + (step >> 1 if code & 2 else 0) + (step >> 2 if code & 1 else 0)


def whole(step, code):
    """.. as sox has it: all parts together."""
    return step * (2 * (code & 7) + 1) >> 3


def moved(state, code, distance=parts):
    """The predictor and the index after a code."""
    predictor, index = state
    move = distance(STEPS[8 + index], code)
    return max(-2048, min(2047, predictor - move if code & 8 else predictor + move)), max(0, min(48, index + CHANGES[code & 7]))


def read(state, data, distance=parts):
    """The numbers of bytes behind a state, and the state behind them."""
    found = []
    for byte in data:
        for code in (byte >> 4, byte & 15):
            state = moved(state, code, distance)
            found.append(16 * state[0])
    return found, state


def code_of(state, number):
    """The code for a number: its bits from the highest down, each where its part of the step still fits."""
    way = (number >> 4) - state[0]
    code, rest, step = (8, -way, STEPS[8 + state[1]]) if way < 0 else (0, way, STEPS[8 + state[1]])
    for bit, part in ((4, step), (2, step >> 1), (1, step >> 2)):
        if rest >= part:
            code, rest = code | bit, rest - part
    return code


def written(state, numbers):
    """The bytes of an even count of numbers behind a state, and the state behind them."""
    made = bytearray()
    for at in range(0, len(numbers), 2):
        first = code_of(state, numbers[at])
        state = moved(state, first)
        second = code_of(state, numbers[at + 1])
        state = moved(state, second)
        made.append(first << 4 | second)
    return bytes(made), state


def numbers_of(data):
    """The numbers of a whole file."""
    return read(START, data)[0]


def coded(numbers):
    """The whole file of numbers: a zero stands behind a last odd one."""
    return written(START, [*numbers, *[0] * (len(numbers) % 2)])[0]
