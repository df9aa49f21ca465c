#!/usr/bin/env -S python3 -B
"""The codecs of the built program against bytes and numbers of other programs, which stand in lib/codec_rows.py: each byte and each number
of 16 bits of both laws, linear samples of each form and in another width, blocks of IMA and Microsoft ADPCM. Files of the bytes are
read by scripts, and files of the numbers are made by scripts and by `convert`. Needs Python 3."""
import zlib

from lib import blocks, codec_rows as rows, kinds
from lib.head import Cases, first_difference, run, start
from lib.tool_runs import RATE, wrong_run

program = start()
cases = Cases("codecs")
OPTION = {"pcm_u8": "-pcmu8", "pcm_16_le": "-pcm16", "pcm_24_le": "-pcm24", "pcm_32_le": "-pcm32", "ulaw": "-ulaw", "alaw": "-alaw", "ima": "-ima-adpcm", "ms": "-ms-adpcm"}
ALL = range(-32768, 32768)


def put(name, content):
    with open(name, "wb") as file:
        file.write(content)


def text_of(lines):
    return "".join(f"{line}\n" for line in lines).encode()


def frame_lines(channels, numbers):
    return [" ".join(map(str, numbers[i:i + channels])) for i in range(0, len(numbers), channels)]


def reads(what, content, kind, codec, channels, numbers):
    """A file of these bytes, whose frames a script is to read as these numbers."""
    put("in", content)
    lines = frame_lines(channels, numbers)
    out = [f"ok {len(lines)} {channels} {RATE} {kind} {codec}", f"ok {len(lines)}", *lines, f"ok {len(lines)}"]
    cases.case(what, run(program, ["script"], text_of(["open r in", f"read {len(lines)}", "close"]), text_of(out), b"", 0))


def data_of(name):
    """The bytes of the samples of a file, WAVE or AU."""
    with open(name, "rb") as file:
        b = file.read()
    if b[:4] == b".snd":
        return b[int.from_bytes(b[4:8], "big"):]
    at, many = next((at, many) for id, at, many in kinds.riff_chunks(b, "<") if id == b"data")
    return b[at:at + many]


def made(name, words, script, out):
    """The faults of a run that makes a file and changes no other, and the bytes of its samples."""
    wrong = run(program, words, script, out, b"", 0, {f"./{name}"})
    return wrong, b"" if wrong else data_of(name)


def by_script(kind, codec, channels, numbers, piece=500):
    lines, replies = [f"create {kind} {codec} {channels} {RATE} out"], [f"ok 0 {channels} {RATE} {kind} {codec}"]
    for at in range(0, len(numbers), piece):
        part = numbers[at:at + piece]
        lines.append("write " + " ".join(map(str, part)))
        replies.append(f"ok {len(part) // channels}")
    return made("out", ["script"], text_of([*lines, "close"]), text_of([*replies, f"ok {len(numbers) // channels}"]))


def by_convert(codec, channels, numbers):
    put("in.wav", kinds.whole_file("wave", "pcm_16_le", channels, RATE, numbers))
    return made("out.wav", ["convert", OPTION[codec], "in.wav", "out.wav"], b"", text_of([f"ok {len(numbers) // channels}"]))


# ---- G.711

for law in kinds.LAWS:
    for kind in ("wave", "au"):
        reads(f"{kind} {law}: every byte", kinds.file_of(kind, law, 1, RATE, bytes(range(256))), kind, law, 1, rows.VALUES[law])
    for how, (wrong, data) in (("a script", by_script("au", law, 1, ALL)), ("convert", by_convert(law, 1, ALL))):
        for i, wanted in enumerate(rows.SUMS[law]):
            got = zlib.adler32(data[4096 * i:4096 * (i + 1)])
            cases.case(f"{law} by {how}: 4096 numbers from {4096 * i - 32768} on", wrong or [f"the sum {got:08x} for {wanted:08x}"] * (got != wanted))
        for number, byte in rows.BYTES[law]:
            got = data[number + 32768:][:1]
            cases.case(f"{law} by {how}: {number}", wrong or first_difference("the byte", got, bytes([byte])))

# ---- linear samples

for kind, codec, numbers, data in rows.LINEAR:
    data = bytes.fromhex(data)
    reads(f"{kind} {codec} is read", kinds.file_of(kind, codec, 1, RATE, data), kind, codec, 1, numbers)
    wrong, got = by_script(kind, codec, 1, numbers)
    cases.case(f"{kind} {codec} is made", wrong or first_difference("the samples", got, data))
for one, other, number, wanted in rows.WIDTHS:
    put("in.wav", kinds.whole_file("wave", one, 1, RATE, [number]))
    cases.case(f"{number} of {one} becomes {wanted} of {other}", wrong_run(program, ["convert", OPTION[other], "in.wav", "out.wav"], b"ok 1\n", b"", 0,
               ("out.wav", kinds.whole_file("wave", other, 1, RATE, [wanted]))))

# ---- ADPCM: one block alone, and nine in a row, which are read by more than one at once

for what, codec, channels, block, numbers in rows.DECODED:
    block = bytes.fromhex(block)
    for kind, many in (("wave", 1), ("w64", 9)):
        content = blocks.file_of_blocks(kind, codec, channels, RATE, len(block), block * many, many * len(numbers) // channels)
        reads(f"{kind} {codec} {channels}: {many} times the block {what}", content, kind, codec, channels, numbers * many)
for codec, channels, front, numbers in rows.ENCODED:
    front = bytes.fromhex(front)
    for how, (wrong, data) in (("a script", by_script("wave", codec, channels, numbers)), ("convert", by_convert(codec, channels, numbers))):
        cases.case(f"{codec} {channels} by {how}", wrong or first_difference("the front of the block", data[:len(front)], front))
for codec, channels, numbers, pieces, front in rows.LONG:
    front = bytes.fromhex(front)
    made_so = [(f"a script of {piece} numbers a line", by_script("wave", codec, channels, numbers, piece)) for piece in pieces]
    for how, (wrong, data) in (*made_so, ("convert", by_convert(codec, channels, numbers))):
        cases.case(f"{codec} {channels}, over a block, by {how}", wrong or first_difference("the blocks", data[:len(front)], front))
cases.end(2 * (2 + 2 * 16) + 2 * 5 + 2 * 8 + 7 + 2 * 6 + 2 * 4 + 6 + 4)
