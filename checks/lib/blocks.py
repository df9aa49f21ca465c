"""IMA and Microsoft ADPCM, as the checks know them beside the program: the blocks of numbers, the numbers of blocks, and the files of
them in WAVE and Wave64. They follow "New Multimedia Data Types and Data Techniques" 3.0 (Microsoft, 1994) and, for IMA,
"Recommended Practices for Enhancing Digital Audio Compatibility in Multimedia Systems" 3.0 (1992); what a writer chooses is
chosen as the program's manual says it."""
import struct

from lib.kinds import chunk, w64_chunk, w64_id

STEPS = [int(step) for step in """7 8 9 10 11 12 13 14 16 17 19 21 23 25 28 31 34 37 41 45 50 55 60 66 73 80 88 97 107 118 130 143 157 173 190 209 230 253 279 307 337 371
408 449 494 544 598 658 724 796 876 963 1060 1166 1282 1411 1552 1707 1878 2066 2272 2499 2749 3024 3327 3660 4026 4428 4871 5358 5894 6484 7132 7845 8630 9493 10442
11487 12635 13899 15289 16818 18500 20350 22385 24623 27086 29794 32767""".split()]
CHANGES = (-1, -1, -1, -1, 2, 4, 6, 8)
PAIRS = ((256, 0), (512, -256), (0, 0), (192, 64), (240, 0), (460, -208), (392, -232))
ADAPTS = (230, 230, 230, 230, 307, 409, 512, 614, 768, 614, 512, 409, 307, 230, 230, 230)


def clamped(x):
    return max(-32768, min(32767, x))


def align(channels, rate):
    """The bytes of a block that is made."""
    return channels * (256 if rate < 12000 else 512 if rate < 23000 else 1024)


def per_block(codec, channels, size):
    return (size - 4 * channels) * 2 // channels + 1 if codec == "ima" else (size - 7 * channels) * 2 // channels + 2


# ---- IMA

def ima_moved(predictor, index, code):
    """The predictor and the index after a code."""
    step = STEPS[index]
    move = (step >> 3) + (step if code & 4 else 0) + (step >> 1 if code & 2 else 0) + (step >> 2 if code & 1 else 0)
    return clamped(predictor - move if code & 8 else predictor + move), max(0, min(88, index + CHANGES[code & 7]))


def ima_code(predictor, index, x):
    code, d = (8, predictor - x) if x < predictor else (0, x - predictor)
    for bit, size in ((4, STEPS[index]), (2, STEPS[index] >> 1), (1, STEPS[index] >> 2)):
        if d >= size:
            code, d = code | bit, d - size
    return code


def ima_block(channels, indices, numbers):
    """A block of frames; the index of each channel goes on in the next."""
    heads, bodies = b"", []
    for channel in range(channels):
        first, *others = numbers[channel::channels]
        heads += struct.pack("<hBB", first, indices[channel], 0)
        predictor, codes = first, []
        for x in others:
            codes.append(ima_code(predictor, indices[channel], x))
            predictor, indices[channel] = ima_moved(predictor, indices[channel], codes[-1])
        bodies.append(bytes(codes[i] | codes[i + 1] << 4 for i in range(0, len(codes), 2)))
    return heads + b"".join(body[i:i + 4] for i in range(0, len(bodies[0]), 4) for body in bodies)


def ima_numbers(channels, block):
    found = []
    for channel in range(channels):
        predictor, index = struct.unpack_from("<hB", block, 4 * channel)
        found.append([predictor])
        for at in range(4 * channels + 4 * channel, len(block), 4 * channels):
            for byte in block[at:at + 4]:
                for code in (byte & 15, byte >> 4):
                    predictor, index = ima_moved(predictor, index, code)
                    found[-1].append(predictor)
    return [x for frame in zip(*found) for x in frame]


# ---- Microsoft

def ms_moved(one, two, delta, pair, code):
    """The sample of a code behind two others, the newer one first, and the step behind it."""
    c1, c2 = PAIRS[pair]
    guess = one * c1 + two * c2 >> 8
    return clamped(guess + (code if code < 8 else code - 16) * delta), max(16, min(1048576, ADAPTS[code] * delta >> 8))


def ms_pair(xs):
    """The pair that guesses the third, the fourth and the fifth sample best, and the sum of what it misses."""
    def missed(pair):
        c1, c2 = PAIRS[pair]
        return sum(abs(xs[i] - clamped(xs[i - 1] * c1 + xs[i - 2] * c2 >> 8)) for i in range(2, min(5, len(xs))))
    best = min(range(7), key=missed)
    return best, missed(best)


def ms_block(channels, numbers):
    tracks = [numbers[channel::channels] for channel in range(channels)]
    states, codes = [], []
    for xs in tracks:
        pair, sum_of = ms_pair(xs)
        states.append([pair, max(16, sum_of // 12), xs[1], xs[0]])
    heads = bytes(state[0] for state in states) + b"".join(struct.pack(f"<{channels}h", *(state[i] for state in states)) for i in (1, 2, 3))
    for i in range(2, len(tracks[0])):
        for xs, state in zip(tracks, states):
            pair, delta, one, two = state
            guess = one * PAIRS[pair][0] + two * PAIRS[pair][1] >> 8
            code = max(-8, min(7, (2 * (xs[i] - guess) + delta) // (2 * delta))) % 16
            sample, after = ms_moved(one, two, delta, pair, code)
            state[1:] = after, sample, one
            codes.append(code)
    return heads + bytes(codes[i] << 4 | codes[i + 1] for i in range(0, len(codes), 2))


def ms_numbers(channels, block):
    pairs = block[:channels]
    deltas, ones, twos = (list(struct.unpack_from(f"<{channels}h", block, channels * (1 + 2 * i))) for i in range(3))
    found = [*twos, *ones]
    codes = [code for byte in block[7 * channels:] for code in (byte >> 4, byte & 15)]
    for i, code in enumerate(codes):
        channel = i % channels
        sample, deltas[channel] = ms_moved(ones[channel], twos[channel], deltas[channel], pairs[channel], code)
        ones[channel], twos[channel] = sample, ones[channel]
        found.append(sample)
    return found


# ---- data and files

def coded(codec, channels, size, numbers):
    """The bytes of the blocks of numbers; zeros fill the last one."""
    whole = channels * per_block(codec, channels, size)
    numbers = [*numbers, *[0] * (-len(numbers) % whole)]
    indices = [0] * channels
    blocks = [numbers[i:i + whole] for i in range(0, len(numbers), whole)]
    return b"".join(ima_block(channels, indices, block) if codec == "ima" else ms_block(channels, block) for block in blocks)


def numbers_of(codec, channels, size, data, frames):
    blocks = [data[i:i + size] for i in range(0, len(data), size)]
    found = [x for block in blocks for x in (ima_numbers if codec == "ima" else ms_numbers)(channels, block)]
    return found[:frames * channels]


def format_body(codec, channels, rate, size):
    many = per_block(codec, channels, size)
    body = struct.pack("<HHIIHHHH", 0x11 if codec == "ima" else 2, channels, rate, rate * size // many, size, 4, 2 if codec == "ima" else 32, many)
    return body + (b"" if codec == "ima" else struct.pack("<H14h", 7, *(c for pair in PAIRS for c in pair)))


def file_of_blocks(kind, codec, channels, rate, size, data, frames):
    """A file of these blocks, each of so many bytes, that holds so many frames."""
    body = format_body(codec, channels, rate, size)
    if kind == "w64":
        rest = w64_id(b"wave") + w64_chunk(b"fmt ", body) + w64_chunk(b"fact", struct.pack("<Q", frames)) + w64_chunk(b"data", data)
        return w64_id(b"riff") + struct.pack("<Q", 24 + len(rest)) + rest
    rest = b"WAVE" + chunk(b"fmt ", body) + chunk(b"fact", struct.pack("<I", frames)) + chunk(b"data", data)
    return b"RIFF" + struct.pack("<I", len(rest)) + rest


def whole_file(kind, codec, channels, rate, numbers):
    """The file that is made with these numbers."""
    size = align(channels, rate)
    return file_of_blocks(kind, codec, channels, rate, size, coded(codec, channels, size, numbers), len(numbers) // channels)
