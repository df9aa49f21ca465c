#!/usr/bin/env -S python3 -B
"""Files of some 20 MB, for each tool of the built program: `info`, `convert` into each width, order, law and codec of ADPCM and from these,
`import` and `export`, `concat`, `interleave`, `deinterleave`, `metadata-set` and `gen`; and a script that reads and changes such a file.
Each run ends with status 0 and its whole text, the file that is made is compared byte for byte with what it is to be, and no other file
is changed. A body that wants memory for large inputs alone fails here. One more file, mostly a hole in the disk, grows to the most that
its head can say. Needs Python 3, and 200 MB of disk."""
import os
import random

from lib import blocks, kinds, vox
from lib.head import Cases, ended, finished, first_difference, run, start
from lib.kinds import chunk

program = start()
cases = Cases("large")
RATE, SIZE = 8000, 20_000_000
dice = random.Random("large")


def put(name, content):
    with open(name, "wb") as file:
        file.write(content)


def wrong_file(name, wanted):
    try:
        with open(name, "rb") as file:
            return first_difference(name, file.read(), wanted)
    except OSError as error:
        return [str(error)]


def makes(words, out, name, wanted):
    """A tool that makes a file, which is removed."""
    wrong = run(program, words, b"", out.encode(), b"", 0, {f"./{name}"}) + wrong_file(name, wanted)
    cases.case(" ".join(words), wrong)
    if os.path.exists(name):
        os.remove(name)


def spread(size, parts):
    """Samples of so many bytes, put together of their bytes, the lowest first; a byte that is none is 0."""
    count = next(len(it) for it in parts if it is not None)
    made = bytearray(size * count)
    for at, it in enumerate(parts):
        if it is not None:
            made[at::size] = it
    return bytes(made)


def sound(kind, codec, data, channels=1):
    return kinds.file_of(kind, codec, channels, RATE, data)


# 16 bits, the lowest byte first, and the two bytes apart
data = dice.randbytes(SIZE)
low, high = data[0::2], data[1::2]
frames = SIZE // 2
put("a.wav", sound("wave", "pcm_16_le", data))
duration = f"{frames // RATE // 3600:02}:{frames // RATE // 60 % 60:02}:{frames // RATE % 60:02}.{frames * 1000 // RATE % 1000:03}"
described = f"name a.wav\nkind wave\ncodec pcm_16_le\nchannels 1\nrate {RATE}\nframes {frames}\nduration {duration}\n"
cases.case("info", run(program, ["info", "a.wav"], b"", described.encode(), b"", 0))

# ---- convert, by its bytes and into other widths
ok = f"ok {frames}\n"
makes(["convert", "a.wav", "b.rf64"], ok, "b.rf64", sound("rf64", "pcm_16_le", data))
makes(["convert", "a.wav", "b.au"], ok, "b.au", sound("au", "pcm_16_be", spread(2, [high, low])))
makes(["convert", "-pcm24", "a.wav", "b.wav"], ok, "b.wav", sound("wave", "pcm_24_le", spread(3, [None, low, high])))
makes(["convert", "-pcm32", "a.wav", "b.wav"], ok, "b.wav", sound("wave", "pcm_32_le", spread(4, [None, None, low, high])))
flipped = bytes(it ^ 128 for it in range(256))
makes(["convert", "-pcmu8", "a.wav", "b.wav"], ok, "b.wav", sound("wave", "pcm_u8", high.translate(flipped)))

# ---- the laws, both ways
laws = {"ulaw": (kinds.mulaw_byte, kinds.mulaw_value), "alaw": (kinds.alaw_byte, kinds.alaw_value)}
# as few numbers as a table of bytes can tell: those whose low byte is 0
put("c.wav", sound("wave", "pcm_16_le", spread(2, [None, high])))
for law, (byte, value) in laws.items():
    table = bytes(byte(256 * (it - 256 if it > 127 else it)) for it in range(256))
    makes(["convert", f"-{law}", "c.wav", "b.wav"], ok, "b.wav", sound("wave", law, high.translate(table)))
    values = [value(it) % 65536 for it in range(256)]
    put("d.wav", sound("wave", law, data))
    lows, highs = (data.translate(bytes(it >> shift & 255 for it in values)) for shift in (0, 8))
    makes(["convert", "-pcm16", "d.wav", "b.wav"], f"ok {SIZE}\n", "b.wav", sound("wave", "pcm_16_le", spread(2, [lows, highs])))
os.remove("d.wav")

# ---- ADPCM, both ways: one block of numbers again and again
for codec in ("ima", "ms"):
    size = blocks.align(1, RATE)
    each = blocks.per_block(codec, 1, size)
    numbers = [dice.randint(-9000, 9000) for _ in range(each)]
    many = frames // each
    put("d.wav", sound("wave", "pcm_16_le", kinds.coded("pcm_16_le", numbers) * many))
    coded, states = [], {}
    index = 0
    for _ in range(many):
        # the index goes on from block to block, and takes few values
        if index not in states:
            indices = [index]
            block = blocks.ima_block(1, indices, numbers) if codec == "ima" else blocks.ms_block(1, numbers)
            states[index] = block, indices[0]
        coded.append(states[index][0])
        index = states[index][1]
    ours = blocks.file_of_blocks("wave", codec, 1, RATE, size, b"".join(coded), many * each)
    makes(["convert", f"-{codec}-adpcm", "d.wav", "b.wav"], f"ok {many * each}\n", "b.wav", ours)
    put("d.wav", ours)
    bytes_of = {block: kinds.coded("pcm_16_le", blocks.numbers_of(codec, 1, size, block, each)) for block, _ in states.values()}
    makes(["convert", "-pcm16", "d.wav", "b.wav"], f"ok {many * each}\n", "b.wav", sound("wave", "pcm_16_le", b"".join(map(bytes_of.get, coded))))
os.remove("d.wav")

# ---- samples without a head and PVF, both ways
put("d.raw", data)
makes(["import", "raw", "pcm_16_le", "1", str(RATE), "d.raw", "b.wav"], ok, "b.wav", sound("wave", "pcm_16_le", data))
makes(["import", "raw", "pcm_16_be", "1", str(RATE), "d.raw", "b.wav"], ok, "b.wav", sound("wave", "pcm_16_le", spread(2, [high, low])))
os.remove("d.raw")
makes(["export", "raw", "a.wav", "b.raw"], ok, "b.raw", data)
as_pvf = f"PVF1\n1 {RATE} 16\n".encode() + spread(2, [high, low])
makes(["export", "pvf", "a.wav", "b.pvf"], ok, "b.pvf", as_pvf)
put("d.pvf", as_pvf)
makes(["import", "pvf", "d.pvf", "b.wav"], ok, "b.wav", sound("wave", "pcm_16_le", data))
os.remove("d.pvf")

# ---- VOX, both ways: some codes, and some numbers, again and again


def repeated(step, part, many):
    """What a part becomes that stands so many times, by a step from a state and a part to what it becomes and the state behind it."""
    state, found, whole = vox.START, {}, []
    for _ in range(many):
        if state not in found:
            found[state] = step(state, part)
        became, state = found[state]
        whole.append(became)
    return whole


def bytes_heard(state, part):
    numbers, after = vox.read(state, part)
    return kinds.coded("pcm_16_le", numbers), after


MANY = frames // 2000
part = dice.randbytes(1000)
put("d.vox", part * MANY)
heard = repeated(bytes_heard, part, MANY)
makes(["import", "vox", str(RATE), "d.vox", "b.wav"], ok, "b.wav", sound("wave", "pcm_16_le", b"".join(heard)))
os.remove("d.vox")
part = [dice.randint(-9000, 9000) for _ in range(2000)]
put("d.wav", sound("wave", "pcm_16_le", kinds.coded("pcm_16_le", part) * MANY))
makes(["export", "vox", "d.wav", "b.vox"], ok, "b.vox", b"".join(repeated(vox.written, part, MANY)))
os.remove("d.wav")

# ---- files joined
makes(["concat", "a.wav", "c.wav", "b.wav"], f"ok {2 * frames}\n", "b.wav", sound("wave", "pcm_16_le", data + spread(2, [None, high])))
makes(["interleave", "a.wav", "c.wav", "-o", "b.wav"], ok, "b.wav", sound("wave", "pcm_16_le", spread(4, [low, high, None, high]), 2))
put("d.au", sound("au", "pcm_s8", high))
makes(["concat", "a.wav", "d.au", "b.wav"], f"ok {2 * frames}\n", "b.wav", sound("wave", "pcm_16_le", data + spread(2, [None, high])))
makes(["interleave", "a.wav", "d.au", "-o", "b.wav"], ok, "b.wav", sound("wave", "pcm_16_le", spread(4, [low, high, None, high]), 2))
os.remove("d.au")
os.remove("c.wav")

# ---- channels apart
put("d.wav", sound("wave", "pcm_16_le", spread(4, [low, high, None, high]), 2))
wrong = run(program, ["deinterleave", "d.wav", "l.wav", "r.wav"], b"", ok.encode(), b"", 0, {"./l.wav", "./r.wav"})
cases.case("deinterleave", wrong + wrong_file("l.wav", sound("wave", "pcm_16_le", data)) + wrong_file("r.wav", sound("wave", "pcm_16_le", spread(2, [None, high]))))
for name in ("d.wav", "l.wav", "r.wav"):
    if os.path.exists(name):
        os.remove(name)

# ---- other texts
texts = chunk(b"LIST", b"INFO" + b"INAM" + (5).to_bytes(4, "little") + b"Dawn\0\0")
makes(["metadata-set", "--str-title", "Dawn", "a.wav", "b.wav"], ok, "b.wav", kinds.riff("wave", "pcm_16_le", 1, RATE, data, texts))

# ---- frames of a seed, edited and summed up
SEED, COUNT = 7, 6_000_000
s, found = SEED, []
for _ in range(2 * COUNT):
    s = (1664525 * s + 1013904223) & 0xFFFFFFFF
    found.append((s >> 16) - 32768)
for i in range(4):
    at = i * COUNT // 4
    found[2 * at:2 * at + 2] = [i, -i]
del found[2 * (COUNT - COUNT // 8):]
text = f"frames {len(found) // 2}\npeak {max(max(found), -min(found))}\nenergy {sum(x * x for x in found)}\n"
made = spread(2, [bytes(x & 255 for x in found), bytes(x >> 8 & 255 for x in found)])
makes(["gen", str(SEED), str(COUNT), "b.wav"], text, "b.wav", kinds.file_of("wave", "pcm_16_le", 2, 44100, made))

# ---- a script that reads all frames, and one that changes a file near its end
numbers = [str(x - 65536 if x > 32767 else x) for x in (int.from_bytes(data[at:at + 2], "little") for at in range(0, 2 * 1024 * 1000, 2))]
lines = ["open r a.wav", *["read 1024"] * 1000, "close"]
replies = [f"ok {frames} 1 {RATE} wave pcm_16_le"]
for at in range(0, 1024 * 1000, 1024):
    replies += ["ok 1024", *numbers[at:at + 1024]]
text_of = lambda lines: "".join(f"{line}\n" for line in lines).encode()
cases.case("a script that reads 1024000 frames", run(program, ["script"], text_of(lines), text_of([*replies, f"ok {frames}"]), b"", 0))
lines = ["open u a.wav", f"seek w {frames - 1}", "write 5 6 7", f"truncate {frames + 1}", "close"]
replies = [f"ok {frames} 1 {RATE} wave pcm_16_le", f"ok {frames - 1}", "ok 3", f"ok {frames + 1}", f"ok {frames + 1}"]
wrong = run(program, ["script"], text_of(lines), text_of(replies), b"", 0, {"./a.wav"})
cases.case("a script that changes a file", wrong + wrong_file("a.wav", sound("wave", "pcm_16_le", data[:-2] + b"\5\0\6\0")))

# ---- a WAVE file that grows to the most that the size of the whole can say: its data are a hole in the disk
MOST = 2**32 + 6 - 44


def to_the_end():
    """The faults of a script that writes two frames where one has room, which is refused, and then that one."""
    with open("most.wav", "wb") as file:
        file.write(kinds.whole_file("wave", "pcm_16_le", 2, RATE, [])[:40] + (MOST - 6).to_bytes(4, "little"))
        file.truncate(44 + MOST - 6)
    before = (MOST - 6) // 4
    lines = ["open u most.wav", f"seek w {before}", "write 1 2 3 4", "write 5 6", "close"]
    replies = [f"ok {before} 2 {RATE} wave pcm_16_le", f"ok {before}", "error 26 ContainerFull", "ok 1", f"ok {before + 1}"]
    wrong = ended(finished([program, "script"], text_of(lines)), text_of(replies), b"", 1)
    with open("most.wav", "rb") as file:
        head = file.read(44)
        file.seek(44 + MOST - 6)
        wrong += first_difference("the last frame", file.read(), b"\5\0\6\0")
    return wrong + first_difference("the sizes", head[4:8] + head[40:], (36 + MOST - 2).to_bytes(4, "little") + (MOST - 2).to_bytes(4, "little"))


cases.case("a file that is full", to_the_end())
os.remove("most.wav")
cases.end(1 + 5 + 4 + 4 + 7 + 4 + 1 + 1 + 1 + 2 + 1)
