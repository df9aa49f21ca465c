#!/usr/bin/env -S python3 -B
"""`snd convert -rack=SPEC` of the built program: frames that pass gains, inversions, maps and fades on their way. Small files, each byte of
what is made written out by hand; files of every kind and codec, and longer ones of each width, against a model that takes frame by frame;
files of ADPCM, read and made; and what is refused, in its order, which changes no file. sox makes the same of what it can make so
exactly: half of even numbers, turned signs, and other channels. Needs Python 3. Where sox, of the Debian package sox, is missing, that is
skipped with a line; where it is there and fails, that is a failure."""
import os
import shutil
import struct
import subprocess

from lib import blocks, kinds, made_tools, tool_runs
from lib.containers_words import PLAIN, TITLED
from lib.head import Cases, first_difference, start
from lib.tool_runs import RATE, changed, numbers

program = start()
cases = Cases("racks")
OPTION = {"pcm_u8": "-pcmu8", "pcm_s8": "-pcms8", "ulaw": "-ulaw", "alaw": "-alaw", "ima": "-ima-adpcm", "ms": "-ms-adpcm"}
OPTION |= {codec: f"-pcm{kinds.width(codec)}" for codec in (*kinds.LITTLE, *kinds.BIG)}


def put(name, content):
    with open(name, "wb") as file:
        file.write(content)


def made(words, frames, content, what=None):
    """A case: the words make the file that they name last, with so many frames and these bytes."""
    cases.case(what or " ".join(words), tool_runs.wrong_run(program, ["convert", *words], f"ok {frames}\n".encode(), b"", 0, (words[-1], content)))


def refused(words, err, status=1):
    """A case: the words are refused, and no file changes."""
    shown = " ".join(word if len(word) < 60 else f"{word[:50]}.." for word in words)
    cases.case(shown, tool_runs.wrong_run(program, words, b"", err.encode(), status))


def bad(*words):
    refused(["convert", *words], "snd: bad words\n", 2)


# ---- small files, by hand: a.wav is 1, -1; c.wav is (1, 5), (-1, 0)
def wave(channels, data, bits=16):
    """A WAVE file of linear samples."""
    align = channels * bits // 8
    head = struct.pack("<4sI4s4sIHHIIHH4sI", b"RIFF", 36 + len(data) + len(data) % 2, b"WAVE", b"fmt ", 16, 1, channels, 8000, 8000 * align, align, bits, b"data", len(data))
    return head + data + b"\0" * (len(data) % 2)


CHANNELS = wave(2, b"\1\0\5\0\xff\xff\0\0")
EMPTY = wave(1, b"")
FILES = {"a.wav": PLAIN, "c.wav": CHANNELS, "e.wav": EMPTY, "t.wav": TITLED, "p.wav": made_tools.BAD, "m.wav": made_tools.IMA, "v.au": made_tools.SMALL, "n.wav": b"no sound"}
for name, content in FILES.items():
    put(name, content)
HIGHEST, LOWEST = wave(1, b"\xff\x7f\0\x80"), wave(1, b"\0\0\0\x80\xff\xff\xff\x7f", 32)
put("w.wav", HIGHEST)
put("l.wav", LOWEST)
MADE = [
    (["-rack=gain:1/2,invert", "a.wav", "h.wav"], 2, wave(1, b"\0\0\1\0")),
    (["-rack=invert,gain:1/2", "a.wav", "h.wav"], 2, wave(1, b"\xff\xff\0\0")),
    (["-rack=map:1.1.0,fade:2", "c.wav", "f.wav"], 2, wave(3, b"\0\0\0\0\0\0\0\0\0\0\xff\xff")),
    (["-rack=fade:2,gain:3/2", "a.wav", "h.wav"], 2, wave(1, b"\0\0\xfe\xff")),
    (["-rack=gain:0000000001/0000000002", "a.wav", "h.wav"], 2, wave(1, b"\0\0\xff\xff")),
    # the range is that of the input, also where the file that is made has more bits
    (["-pcm24", "-rack=gain:65535/1", "a.wav", "h.wav"], 2, wave(1, bytes.fromhex("00ff7f000080"), 24)),
    (["-rack=gain:65535/1", "-pcm24", "a.wav", "h.wav"], 2, wave(1, bytes.fromhex("00ff7f000080"), 24)),
    (["-pcmu8", "-rack=gain:65535/1", "a.wav", "h.wav"], 2, wave(1, b"\xff\0", 8)),
    # nothing leaves the range
    (["-rack=invert", "w.wav", "h.wav"], 2, wave(1, b"\1\x80\xff\x7f")),
    (["-rack=invert,invert", "w.wav", "h.wav"], 2, wave(1, b"\xff\x7f\1\x80")),
    (["-rack=gain:65535/1", "l.wav", "h.wav"], 2, wave(1, b"\0\0\0\x80\xff\xff\xff\x7f", 32)),
    (["-rack=invert", "l.wav", "h.wav"], 2, wave(1, b"\xff\xff\xff\x7f\1\0\0\x80", 32)),
    (["-rack=fade:4294967295", "l.wav", "h.wav"], 2, wave(1, b"\0\0\0\0\0\0\0\0", 32)),
    # one sample of channels, silence, and the same again
    (["-rack=map:1", "c.wav", "h.wav"], 2, wave(1, b"\5\0\0\0")),
    (["-rack=map:1.0", "c.wav", "h.wav"], 2, wave(2, b"\5\0\1\0\0\0\xff\xff")),
    (["-rack=map:0.0,map:1.0.1", "a.wav", "h.wav"], 2, wave(3, b"\1\0\1\0\1\0\xff\xff\xff\xff\xff\xff")),
    (["-rack=map:" + ".".join(["0"] * 256), "a.wav", "h.wav"], 2, wave(256, b"\1\0" * 256 + b"\xff\xff" * 256)),
    (["-rack=gain:0/65535", "c.wav", "h.wav"], 2, wave(2, bytes(8))),
    (["-rack=fade:1", "c.wav", "h.wav"], 2, wave(2, b"\0\0\0\0\xff\xff\0\0")),
    (["-rack=gain:65535/65535,map:0.1,fade:1,invert,gain:1/1,map:0000000000.0000000001,invert,gain:2/2", "c.wav", "h.wav"], 2, wave(2, b"\0\0\0\0\xff\xff\0\0")),
    # four of a kind
    (["-rack=gain:3/1,gain:3/1,gain:3/1,gain:3/1", "a.wav", "h.wav"], 2, wave(1, b"\x51\0\xaf\xff")),
    # an empty file has the channels that the map leaves
    (["-rack=map:0.0,invert", "e.wav", "h.wav"], 0, wave(2, b"")),
    # the kind and the codec that is made judge what comes out
    (["-pcms8", "-rack=map:1", "c.wav", "h.svx"], 2, kinds.svx(8000, b"\0\0")),
    (["-endian=little", "-rack=invert", "-override-sample-rate=9000", "a.wav", "h.au"], 2, kinds.au("dns", "pcm_16_le", 1, 9000, b"\xff\xff\1\0")),
    (["-rack=invert", "v.au", "h.au"], 2, kinds.au("au", "pcm_s8", 1, 8000, b"\0\1")),
    # the samples of ADPCM, as sox decodes them: 100, 122, 131, 90, 84, 89, 114, 145, 107
    (["-pcm16", "-rack=gain:1/2", "m.wav", "h.au"], 9, kinds.au("au", "pcm_16_be", 1, 8000, bytes.fromhex("0032003d0041002d002a002c003900480035"))),
    # chunks go with the frames
    (["-rack=invert", "t.wav", "h.wav"], 2, kinds.riff("wave", "pcm_16_le", 1, 8000, b"\xff\xff\1\0", kinds.chunk(b"LIST", b"INFO" + kinds.chunk(b"INAM", b"A\0")))),
]
for words, frames, content in MADE:
    made(words, frames, content)

# ---- what is refused, in its order; a file stands under each name that would be made
for name in ("h.wav", "f.wav", "h.voc", "h.rf64"):
    put(name, b"as it was")
put("long.wav", wave(1, bytes(8_400_000), 8))
FIVE = ",".join(["fade:1"] * 5)
REFUSED = [
    (["-rack=map:9", "c.wav", "c.wav"], "c.wav: error 50 SameName"), (["-rack=map:9", "c.wav", "h.xyz"], "h.xyz: error 54 UnknownSuffix"),
    (["-rack=map:0.0,map:2", "a.wav", "h.xyz"], "h.xyz: error 54 UnknownSuffix"), ([f"-rack={FIVE}", "no.wav", "f.wav"], "no.wav: error 56 MissingFile"),
    ([f"-rack={FIVE}", "n.wav", "f.wav"], "n.wav: error 1 NotSound"),
    # more of a kind than there are, whatever else is wrong
    (["-rack=invert,invert,invert,invert,invert", "c.wav", "f.wav"], "c.wav: error 66 NoSuchStage"), ([f"-rack={FIVE}", "c.wav", "f.wav"], "c.wav: error 66 NoSuchStage"),
    (["-rack=gain:1/1,invert,gain:1/1,invert,gain:1/1,gain:1/1,fade:1,gain:1/1", "c.wav", "f.wav"], "c.wav: error 66 NoSuchStage"),
    (["-rack=map:0,map:0,map:0,map:0,map:0", "e.wav", "f.wav"], "e.wav: error 66 NoSuchStage"),
    (["-rack=map:9,invert,invert,invert,invert,invert", "c.wav", "f.wav"], "c.wav: error 66 NoSuchStage"),
    (["-rack=invert,invert,invert,invert,invert,map:9", "c.wav", "f.wav"], "c.wav: error 66 NoSuchStage"),
    # a place that no sample has which reaches the map
    (["-rack=map:2", "c.wav", "f.wav"], "c.wav: error 67 BadPlace"), (["-rack=map:0.1.255", "c.wav", "f.wav"], "c.wav: error 67 BadPlace"),
    (["-rack=map:0.0,map:2", "a.wav", "h.wav"], "a.wav: error 67 BadPlace"), (["-rack=map:0,map:1", "c.wav", "f.wav"], "c.wav: error 67 BadPlace"),
    (["-rack=map:1", "e.wav", "f.wav"], "e.wav: error 67 BadPlace"), (["-rack=map:1", "p.wav", "f.wav"], "p.wav: error 67 BadPlace"),
    (["-override-sample-rate=0", "-rack=map:2", "c.wav", "f.wav"], "c.wav: error 67 BadPlace"), (["-pcms8", "-rack=map:2", "c.wav", "f.wav"], "c.wav: error 67 BadPlace"),
    # what is made has the channels of the last map
    (["-override-sample-rate=0", "-rack=map:0", "c.wav", "f.wav"], "f.wav: error 12 BadRate"), (["-rack=map:0.0.0", "a.wav", "h.voc"], "h.voc: error 18 BadPair"),
    (["-ima-adpcm", "-rack=map:0.0.0", "a.wav", "h.wav"], "h.wav: error 18 BadPair"), (["-rack=map:0.0.0", "m.wav", "h.wav"], "h.wav: error 18 BadPair"),
    (["-rack=map:0.0", "long.wav", "h.voc"], "h.voc: error 26 ContainerFull"), (["-pcm16", "-rack=invert", "p.wav", "h.wav"], "p.wav: error 35 BadBlock"),
]
for words, text in REFUSED:
    refused(["convert", *words], f"snd: {text}\n")
made(["-rack=map:0", "long.wav", "long.voc"], 8_400_000, kinds.voc("pcm_u8", 1, 8000, bytes(8_400_000)), "a VOC file that is nearly full")
for name in ("long.wav", "long.voc"):
    os.remove(name)
refused(["convert", "-rack=invert", "a.wav", "./a.wav"], "", 3)

# ---- words that are refused
SPECS = ["", ",", "invert,", ",invert", "invert,,invert", ",".join(["invert"] * 9), "gain:1/2,map:0,fade:1,invert,gain:1/2,map:0,fade:1,invert,mute",
         "mute", "Invert", "invert:", "invert:1", "gain", "gain:", "gain:1", "gain:1/", "gain:/1", "gain:/", "gain:1/2/3", "gain:1/0", "gain:0/0000000000", "gain:65536/1", "gain:1/65536",
         "gain:-1/2", "gain:+1/2", "gain:1/2 ", "gain:1 /2", "gain:0.5", "gain:00000000001/2", "gain:1/00000000002", "gain:99999999999/1", "gain:1/2;invert",
         "map", "map:", "map:256", "map:-1", "map:0.", "map:.0", "map:0..1", "map:0,1", "map:0 1", "map:00000000000", "map:" + ".".join(["0"] * 257), "map:0x1",
         "fade", "fade:", "fade:0", "fade:0000000000", "fade:4294967296", "fade:9999999999", "fade:04294967295", "fade:1/2", "fade:-1", "fade:1.5", "invert=1"]
for spec in SPECS:
    bad(f"-rack={spec}", "a.wav", "h.wav")
WORDS = [("-rack", "a.wav", "h.wav"), ("-rack", "invert", "a.wav", "h.wav"), ("-rack:invert", "a.wav", "h.wav"), ("-RACK=invert", "a.wav", "h.wav"), ("--rack=invert", "a.wav", "h.wav"),
         ("-rack=invert", "-rack=invert", "a.wav", "h.wav"), ("-rack=invert", "-pcm16", "-rack=fade:1", "a.wav", "h.wav"), ("a.wav", "-rack=invert", "h.wav"), ("a.wav", "h.wav", "-rack=invert"),
         ("-rack=invert", "a.wav"), ("-rack=invert",)]
for words in WORDS:
    bad(*words)
for words in (["concat", "-rack=invert", "a.wav", "c.wav", "h.wav"], ["interleave", "-rack=invert", "a.wav", "a.wav", "-o", "h.wav"], ["info", "-rack=invert", "a.wav"]):
    refused(words, "snd: bad words\n", 2)


# ---- a model, frame by frame
def clamped(x, bits):
    return max(-1 << bits - 1, min((1 << bits - 1) - 1, x))


def behind(item, bits, i, frame):
    """What one item makes of the frame with the number i."""
    name, _, setting = item.partition(":")
    if name == "gain":
        a, b = map(int, setting.split("/"))
        return [clamped(x * a // b, bits) for x in frame]
    if name == "invert":
        return [clamped(-x, bits) for x in frame]
    if name == "map":
        return [frame[int(place)] for place in setting.split(".")]
    return [x * i // int(setting) for x in frame] if i < int(setting) else frame


def racked(spec, bits, channels, found):
    """The numbers behind a rack, and how many channels they have."""
    every, items = [], spec.split(",")
    for i in range(len(found) // channels):
        frame = found[i * channels:(i + 1) * channels]
        for item in items:
            frame = behind(item, bits, i, frame)
        every += frame
    maps = [item for item in items if item.startswith("map:")]
    return every, maps[-1].count(".") + 1 if maps else channels


def through(spec, one, other, channels, held, source, what):
    """Converts a file of one kind and codec, which holds these numbers, with a rack into another."""
    found, wanted = racked(spec, kinds.width(one[1]), channels, held)
    target = f"out-{other[0]}.{kinds.SUFFIX[other[0]]}"
    order = ["-endian=little"] if other[0] == "dns" else ["-endian=big"] if other == ("sphere", "pcm_16_be") else []
    whole = (blocks if other[1] in ("ima", "ms") else kinds).whole_file(*other, wanted, RATE, changed(one[1], other[1], found))
    made([*order, OPTION[other[1]], f"-rack={spec}", source, target], len(held) // channels, whole, what)


def laid(kind, codec, channels, held):
    source = f"in-{kind}.{kinds.SUFFIX[kind]}"
    put(source, kinds.whole_file(kind, codec, channels, RATE, held))
    return source


# every kind and codec, into another one; a read has as many numbers as 8192 frames of two channels
PAIRS = [(kind, codec) for kind in kinds.HOLDS for codec in kinds.HOLDS[kind]]
FRAMES, COUNT = 9000, len(PAIRS)
for at, one in enumerate(PAIRS):
    other = PAIRS[(at * 7 + 3) % COUNT]
    channels = min(2, kinds.MOST.get(one[0], 2))
    spec = f"gain:3/2,invert,map:{0 if kinds.MOST.get(other[0], 2) == 1 else '0.0' if channels == 1 else '1.0'},fade:8500,gain:{1000 + at}/{1501 - at}"
    held = numbers(one[1], FRAMES * channels)
    through(spec, one, other, channels, held, laid(*one, channels, held), f"{one[0]} {one[1]} to {other[0]} {other[1]}")

# longer files of each width, as their codec stays and in another
LONG = 300_001
for one, spec, other in (
    (("wave", "pcm_u8"), "gain:5/3,fade:250000", ("wave", "pcm_u8")), (("wave", "pcm_16_le"), "fade:70000,gain:1/2,invert", ("wave", "pcm_16_le")),
    (("wave", "pcm_24_le"), "map:1.0.1,gain:7/5,fade:299999,map:2.0", ("wave", "pcm_24_le")), (("au", "pcm_32_be"), "invert,gain:65535/2,invert", ("au", "pcm_32_be")),
    (("wave", "pcm_16_le"), "map:1,fade:300000", ("rf64", "pcm_32_le")), (("wave", "ulaw"), "gain:3/4,map:0.1.1.0.0", ("au", "ulaw")), (("au", "alaw"), "fade:16384", ("wave", "pcm_u8")),
):
    held = numbers(one[1], LONG * 2)
    through(spec, one, other, 2, held, laid(*one, 2, held), f"{LONG} frames, {one[0]} {one[1]} to {other[0]} {other[1]}")
# one sample becomes 256
data = kinds.coded("pcm_u8", numbers("pcm_u8", 20_000))
put("byte.wav", wave(1, data, 8))
made(["-rack=map:" + ".".join(["0"] * 256), "byte.wav", "h.wav"], 20_000, wave(256, b"".join(bytes([byte]) * 256 for byte in data), 8), "20000 frames of one sample, which becomes 256")
data = b"".join(bytes((i * 7 + k) % 256 for k in range(256)) for i in range(2000))
put("byte.wav", wave(256, data, 8))
made(["-rack=map:255,map:" + ".".join(["0"] * 256) + ",map:255.3", "byte.wav", "h.wav"], 2000, wave(2, b"".join(data[i + 255:i + 256] * 2 for i in range(0, len(data), 256)), 8), "256 samples, then 1, 256 and 2")

# ---- ADPCM, read and made
for codec in ("ima", "ms"):
    for channels in (1, 2):
        size, given = blocks.align(channels, RATE), numbers("pcm_16_le", 20_000 * channels)
        held = blocks.numbers_of(codec, channels, size, blocks.coded(codec, channels, size, given), 20_000)
        put("in.wav", blocks.whole_file("wave", codec, channels, RATE, given))
        through(f"gain:2/3,map:0.{channels - 1},fade:17000", ("wave", codec), ("w64", codec), channels, held, "in.wav", f"{codec} {channels} to itself")
        through(f"invert,map:0.{channels - 1}.0,fade:19999", ("wave", codec), ("au", "pcm_24_be"), channels, held, "in.wav", f"{codec} {channels} to 24 bits")
        put("plain.wav", kinds.whole_file("wave", "pcm_24_le", channels, RATE, [x << 8 for x in given]))
        through("fade:123,gain:9/10,map:0", ("wave", "pcm_24_le"), ("wave", codec), channels, [x << 8 for x in given], "plain.wav", f"24 bits {channels} to {codec}")

# ---- what sox makes of the same; it rounds the half of an odd number to the nearest, so that even ones alone are given
PEERS = [("gain:1/2", ["vol", "0.5"]), ("invert", ["vol", "-1"]), ("map:1.0", ["remix", "2", "1"]), ("map:0.0.1.1.0", ["remix", "1", "1", "2", "2", "1"]), ("map:1,gain:1/4,map:0.0", ["remix", "2", "2", "vol", "0.25"])]
skipped = 0
if shutil.which("sox"):
    held = [x & ~3 for x in numbers("pcm_16_le", 50_000)]
    put("plain.wav", kinds.whole_file("wave", "pcm_16_le", 2, RATE, held))
    for spec, effects in PEERS:
        wrong = tool_runs.wrong_run(program, ["convert", f"-rack={spec}", "plain.wav", "h.wav"], b"ok 25000\n", b"", 0, ("h.wav", kinds.whole_file("wave", "pcm_16_le", racked(spec, 16, 2, [])[1], RATE, racked(spec, 16, 2, held)[0])))
        subprocess.run(["sox", "-D", "plain.wav", "by-sox.wav", *effects], check=True, capture_output=True)
        with open("h.wav", "rb") as one, open("by-sox.wav", "rb") as other:
            by_snd, by_sox = kinds.stated(one.read()), kinds.stated(other.read())
        cases.case(f"{spec}, as sox makes it", wrong + ["other channels"] * (by_snd.channels != by_sox.channels) + first_difference("the frames", by_snd.data, by_sox.data))
else:
    skipped = len(PEERS)
    print(f"skipped: {skipped} cases of racks, sox is missing")
cases.end(len(MADE) + len(REFUSED) + 2 + len(SPECS) + len(WORDS) + 3 + COUNT + 7 + 2 + 12 + len(PEERS) - skipped, f", {skipped} skipped" if skipped else "")
