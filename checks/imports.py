#!/usr/bin/env -S python3 -B
"""`snd import` and `snd export` of the built program: samples without a head, PVF and Dialogic VOX. Small files, each byte of what is made
written out by hand; every codec without a head into every kind, and every kind and codec, ADPCM too, out again, against a model; every front
of a PVF head, the longest ones, and lines of other forms; and what is refused, in its order, which changes no file. What sox and
sndfile-convert make of the same is compared, both ways. Needs Python 3. Where sox or sndfile-convert, of the Debian packages sox and
sndfile-programs, is missing, that is skipped with a line; where it is there and fails, that is a failure."""
import atexit
import os
import random
import shutil
import struct
import subprocess
import tempfile

from lib import blocks, kinds, made_tools, tool_runs, vox
from lib.containers_words import PLAIN, TITLED
from lib.head import Cases, first_difference, start
from lib.tool_runs import RATE, changed, numbers

program = start()
cases = Cases("imports")
CODECS = ("pcm_u8", "pcm_s8", *kinds.LITTLE, *kinds.BIG, *kinds.LAWS)
# the kinds that a suffix names, the codec of 8 bits and the order of bytes of each
KINDS = {"wave": ("pcm_u8", "le"), "rf64": ("pcm_u8", "le"), "w64": ("pcm_u8", "le"), "au": ("pcm_s8", "be"), "voc": ("pcm_u8", "le"),
         "svx": ("pcm_s8", "be"), "sphere": ("pcm_u8", "le")}


def put(name, content):
    with open(name, "wb") as file:
        file.write(content)


def content_of(name):
    with open(name, "rb") as file:
        return file.read()


def made(words, frames, content, what=None):
    """A case: the words make the file that they name last, with so many frames and these bytes."""
    cases.case(what or " ".join(words), tool_runs.wrong_run(program, words, f"ok {frames}\n".encode(), b"", 0, (words[-1], content)))


def refused(words, err, status=1):
    """A case: the words are refused, and no file changes."""
    cases.case(" ".join(words)[:90], tool_runs.wrong_run(program, words, b"", err.encode(), status))


def wave(channels, data, bits=16):
    """A WAVE file of linear samples."""
    return kinds.riff("wave", "pcm_u8" if bits == 8 else f"pcm_{bits}_le", channels, RATE, data)


def class_of(kind, codec):
    """The codec that samples of one get in a kind; none, where it does not hold it."""
    eight, order = KINDS[kind]
    wanted = codec if codec in kinds.LAWS else eight if kinds.width(codec) == 8 else f"pcm_{kinds.width(codec)}_{order}"
    return wanted if wanted in kinds.HOLDS[kind] else None


# ---- by hand
FILES = {"a.wav": PLAIN, "t.wav": TITLED, "s.wav": wave(2, b"\1\0\5\0\xff\xff\0\0"), "e.wav": wave(1, b""), "p.wav": made_tools.BAD, "m.wav": made_tools.IMA, "v.au": made_tools.SMALL,
         "w24.wav": wave(1, bytes.fromhex("0000800100000200ff"), 24), "w32.wav": wave(1, bytes.fromhex("000000800000ff7f"), 32),
         "v.vox": b"\x7f\x08", "e.raw": b"", "o.raw": b"\1", "q.raw": bytes.fromhex("0001000209"), "b.raw": bytes.fromhex("0180ff02"), "l.raw": bytes.fromhex("7fff"), "n.raw": b"no sound"}
for name, content in FILES.items():
    put(name, content)
IMA = (100, 122, 131, 90, 84, 89, 114, 145, 107)
MADE = [
    (["import", "vox", "8000", "v.vox", "v.wav"], 4, wave(1, struct.pack("<4h", 480, -528, -384, -512))),
    (["import", "vox", "0000000000000008000", "v.vox", "x.au"], 4, kinds.au("au", "pcm_16_be", 1, 8000, struct.pack(">4h", 480, -528, -384, -512))),
    (["import", "vox", "4294967295", "e.raw", "x.w64"], 0, kinds.w64("pcm_16_le", 1, 4294967295, b"")),
    (["import", "raw", "pcm_16_be", "2", "8000", "q.raw", "x.au"], 1, kinds.au("au", "pcm_16_be", 2, 8000, bytes.fromhex("00010002"))),
    (["import", "raw", "pcm_16_le", "2", "8000", "q.raw", "x.au"], 1, kinds.au("au", "pcm_16_be", 2, 8000, bytes.fromhex("01000200"))),
    (["import", "raw", "pcm_s8", "1", "8000", "b.raw", "x.wav"], 4, wave(1, bytes.fromhex("81007f82"), 8)),
    (["import", "raw", "pcm_u8", "1", "8000", "b.raw", "x.svx"], 4, kinds.svx(8000, bytes.fromhex("81007f82"))),
    (["import", "raw", "pcm_u8", "3", "8000", "b.raw", "x.wav"], 1, wave(3, bytes.fromhex("0180ff"), 8)),
    # the byte of mu-law for a negative zero becomes that of zero, as with `convert`
    (["import", "raw", "ulaw", "1", "8000", "l.raw", "x.wav"], 2, kinds.riff("wave", "ulaw", 1, 8000, b"\xff\xff")),
    (["import", "raw", "pcm_16_le", "1", "8000", "e.raw", "x.wav"], 0, wave(1, b"")), (["import", "raw", "pcm_16_le", "1", "8000", "o.raw", "x.wav"], 0, wave(1, b"")),
    (["import", "raw", "pcm_32_be", "256", "1", "q.raw", "x.rf64"], 0, kinds.riff("rf64", "pcm_32_le", 256, 1, b"")),
    # what has a head of its own counts as samples
    (["import", "raw", "pcm_u8", "1", "8000", "a.wav", "x.wav"], 48, wave(1, PLAIN, 8)),
    (["export", "vox", "v.wav", "w.vox"], 4, b"\x7f\x08"), (["export", "vox", "e.wav", "w.vox"], 0, b""),
    (["export", "pvf", "a.wav", "a.pvf"], 2, bytes.fromhex("505646310a3120383030302031360a0001ffff")),
    (["import", "pvf", "a.pvf", "x.wav"], 2, PLAIN),
    (["export", "pvf", "s.wav", "x.wav"], 2, b"PVF1\n2 8000 16\n" + bytes.fromhex("00010005ffff0000")), (["export", "pvf", "v.au", "x.pvf"], 2, b"PVF1\n1 8000 8\n\0\xff"),
    (["export", "pvf", "w32.wav", "x.pvf"], 2, b"PVF1\n1 8000 32\n" + bytes.fromhex("800000007fff0000")),
    (["export", "pvf", "w24.wav", "x.pvf"], 3, b"PVF1\n1 8000 32\n" + bytes.fromhex("8000000000000100ff000200")), (["export", "pvf", "e.wav", "x.pvf"], 0, b"PVF1\n1 8000 16\n"),
    (["export", "raw", "a.wav", "x.raw"], 2, b"\1\0\xff\xff"), (["export", "raw", "t.wav", "x"], 2, b"\1\0\xff\xff"), (["export", "raw", "e.wav", "x.raw"], 0, b""),
    # the samples of ADPCM, as sox decodes them; VOX has a zero behind a last odd one
    (["export", "raw", "m.wav", "x.raw"], 9, struct.pack("<9h", *IMA)), (["export", "pvf", "m.wav", "x.pvf"], 9, b"PVF1\n1 8000 16\n" + struct.pack(">9h", *IMA)),
    (["export", "vox", "m.wav", "x.vox"], 9, vox.coded([*IMA, 0])),
]
for words, frames, content in MADE:
    made(words, frames, content)

# ---- heads of PVF
WHOLE = b"PVF1\n2 44100 16\n"
LONGEST = b"PVF1\n0000000002 0000044100 0000000016\n"
for at in range(len(WHOLE)):
    put("x.pvf", WHOLE[:at])
    refused(["import", "pvf", "x.pvf", "x.wav"], f"snd: x.pvf: error {'1 NotSound' if at < 5 else '4 BadField'}\n")
HEADS = [(b"PVF1\n01 08000 08\nab", 2, kinds.riff("wave", "pcm_u8", 1, 8000, b"\xe1\xe2")), (WHOLE, 0, kinds.riff("wave", "pcm_16_le", 2, 44100, b"")),
         (b"PVF1\n256 4294967295 8\n" + bytes(511), 1, kinds.riff("wave", "pcm_u8", 256, 4294967295, b"\x80" * 256)), (b"PVF1\n3 8000 16\n" + b"\n" * 8, 1, wave(3, b"\n" * 6))]
# the samples begin behind the longest head, in a file of as many bytes as are read of a head, and of one less and one more
HEADS += [(LONGEST + bytes(size - len(LONGEST)), (size - len(LONGEST)) // 4, kinds.riff("wave", "pcm_16_le", 2, 44100, bytes((size - len(LONGEST)) // 4 * 4))) for size in (38, 63, 64, 65)]
for content, frames, wanted in HEADS:
    put("x.pvf", content)
    made(["import", "pvf", "x.pvf", "x.wav"], frames, wanted, f"a PVF file that begins {content[:40]}, of {len(content)} bytes")
BAD_HEADS = [(b"PVF2\n1 8000 8\n", "1 NotSound"), (b"pvf1\n1 8000 8\n", "1 NotSound"), (b"PVF1 1 8000 8\n", "1 NotSound"), (b"PVF1\r\n1 8000 8\n", "1 NotSound"), (b"\nPVF1\n1 8000 8\n", "1 NotSound"),
             (b"PVF1\n0 0 24\n", "11 BadChannels"), (b"PVF1\n257 8000 16\n", "11 BadChannels"), (b"PVF1\n9999999999 9999999999 9999999999\n", "11 BadChannels"),
             (b"PVF1\n1 0 24\n", "12 BadRate"), (b"PVF1\n1 4294967296 16\n", "12 BadRate"), (b"PVF1\n1 8000 24\n", "13 BadBits"), (b"PVF1\n1 8000 0\n", "13 BadBits"), (b"PVF1\n1 8000 9999999999\n", "13 BadBits")]
LINES = [b"1 8000 8 \nab", b" 1 8000 8\n", b"1  8000 8\n", b"1 8000\n", b"1 8000 8 1\n", b"01234567890 8000 8\n", b"1 00000008000 8\n", b"1 8000 00000000008\n", b"-1 8000 8\n", b"+1 8000 8\n",
         b"1 8000 8\r\n", b"1\t8000 8\n", b"1 8000 8\0\n", b"\n1 8000 8\n", b"1 8000 0x8\n", b"a 8000 8\n", b"1,8000,8\n", b"1 8000.0 8\n",
         # the line ends with byte 64, and with byte 65
         b"1 8000 " + b"8" * 51 + b"\n", b"1 8000 " + b"8" * 52 + b"\n", b"1 8000 " + b"8" * 1000 + b"\n"]
BAD_HEADS += [(b"PVF1\n" + it, "4 BadField") for it in LINES]
for content, why in BAD_HEADS:
    put("x.pvf", content)
    refused(["import", "pvf", "x.pvf", "x.wav"], f"snd: x.pvf: error {why}\n")

# ---- what is refused, in its order; a file stands under each name that would be made
for name in ("x.voc", "x.sph"):
    put(name, b"as it was")
put("x.pvf", b"PVF1\n1 70000 32\n")
REFUSED = [
    (["import", "raw", "pcm_s8", "257", "0", "no.raw", "no.raw"], "no.raw: error 50 SameName"), (["import", "vox", "0", "v.vox", "v.vox"], "v.vox: error 50 SameName"), (["import", "pvf", "a.wav", "a.wav"], "a.wav: error 50 SameName"),
    (["import", "raw", "pcm_s8", "257", "0", "no.raw", "x.raw"], "x.raw: error 54 UnknownSuffix"), (["import", "vox", "0", "no.vox", "x"], "x: error 54 UnknownSuffix"), (["import", "pvf", "a.wav", "x.WAV"], "x.WAV: error 54 UnknownSuffix"),
    (["import", "raw", "pcm_s8", "257", "0", "no.raw", "x.wav"], "no.raw: error 56 MissingFile"), (["import", "vox", "0", "no.vox", "x.wav"], "no.vox: error 56 MissingFile"), (["import", "pvf", "no.pvf", "x.voc"], "no.pvf: error 56 MissingFile"),
    (["import", "raw", "pcm_s8", "257", "0", "b.raw", "x.wav"], "b.raw: error 11 BadChannels"), (["import", "raw", "pcm_24_le", "0", "0", "b.raw", "x.voc"], "b.raw: error 11 BadChannels"),
    (["import", "raw", "pcm_s8", "9223372036854775807", "8000", "b.raw", "x.wav"], "b.raw: error 11 BadChannels"), (["import", "raw", "pcm_24_le", "1", "0", "b.raw", "x.voc"], "b.raw: error 12 BadRate"),
    (["import", "raw", "pcm_s8", "1", "4294967296", "b.raw", "x.svx"], "b.raw: error 12 BadRate"), (["import", "vox", "0", "v.vox", "x.svx"], "v.vox: error 12 BadRate"), (["import", "vox", "9223372036854775807", "v.vox", "x.svx"], "v.vox: error 12 BadRate"),
    (["import", "raw", "pcm_s8", "1", "70000", "b.raw", "x.svx"], "x.svx: error 12 BadRate"), (["import", "pvf", "x.pvf", "x.svx"], "x.svx: error 12 BadRate"),
    (["import", "raw", "pcm_24_le", "1", "8000", "b.raw", "x.voc"], "x.voc: error 18 BadPair"), (["import", "pvf", "x.pvf", "x.sph"], "x.sph: error 18 BadPair"),
    (["import", "vox", "8000", "v.vox", "x.svx"], "x.svx: error 18 BadPair"), (["import", "pvf", "a.wav", "x.wav"], "a.wav: error 1 NotSound"), (["import", "pvf", "a.wav", "x.voc"], "a.wav: error 1 NotSound"),
    (["export", "raw", "no.wav", "no.wav"], "no.wav: error 50 SameName"), (["export", "vox", "s.wav", "s.wav"], "s.wav: error 50 SameName"), (["export", "pvf", "p.wav", "p.wav"], "p.wav: error 50 SameName"),
    (["export", "raw", "no.wav", "x.raw"], "no.wav: error 56 MissingFile"), (["export", "vox", "no.wav", "x.vox"], "no.wav: error 56 MissingFile"), (["export", "pvf", "n.raw", "x.pvf"], "n.raw: error 1 NotSound"), (["export", "vox", "v.vox", "x.vox"], "v.vox: error 1 NotSound"),
    (["export", "vox", "s.wav", "x.vox"], "s.wav: error 52 NotMono"), (["export", "raw", "p.wav", "x.raw"], "p.wav: error 35 BadBlock"), (["export", "vox", "p.wav", "x.vox"], "p.wav: error 35 BadBlock"), (["export", "pvf", "p.wav", "x.pvf"], "p.wav: error 35 BadBlock"),
]
for words, text in REFUSED:
    refused(words, f"snd: {text}\n")
# holes in the disk, in a folder whose sums are not taken
holes = tempfile.mkdtemp()
atexit.register(shutil.rmtree, holes, True)
LONG = [(1 << 24, ["import", "raw", "pcm_s8", "1", "8000"], "x.voc: error 26 ContainerFull"), (1 << 32, ["import", "raw", "pcm_u8", "1", "8000"], "x.wav: error 26 ContainerFull"),
        (1 << 30, ["import", "vox", "8000"], "x.wav: error 26 ContainerFull"), (1 << 32, ["import", "raw", "pcm_u8", "3", "8000"], "x.voc: error 18 BadPair"), (1 << 32, ["import", "raw", "pcm_u8", "1", "0"], None)]
for size, words, text in LONG:
    with open(f"{holes}/hole", "wb") as file:
        file.truncate(size)
    refused([*words, f"{holes}/hole", text.split(":")[0] if text else "x.voc"], f"snd: {text or f'{holes}/hole: error 12 BadRate'}\n")
os.remove(f"{holes}/hole")
for words in (["import", "raw", "pcm_u8", "1", "8000", "a.wav", "./a.wav"], ["import", "pvf", "a.pvf", "no/x.wav"], ["export", "raw", "a.wav", "./a.wav"], ["export", "vox", "a.wav", "../no/x.vox"]):
    refused(words, "", 3)

# ---- words that are refused
RAW = ["import", "raw", "pcm_s8", "1", "8000", "b.raw", "x.wav"]
BAD = [["import"], ["export"], *([*RAW[:at]] for at in range(2, 7)), [*RAW, "x.wav"], *([*RAW[:2], it, *RAW[3:]] for it in ("ima", "ms", "pcm_16", "PCM_S8", "pcms8", "-pcms8", "wave", "raw", "pcm_s8x", "pcm_s", "")),
       *([*RAW[:at], it, *RAW[at + 1:]] for at in (3, 4) for it in ("-1", "+1", "1.5", "", "one", "0x10", "9223372036854775808", "00000000000000000001", "1 ", "1\n")),
       *([*RAW[:at], it, *RAW[at + 1:]] for at in (5, 6) for it in ("-x.wav", "x y.wav", "", "x" * 252 + ".wav", "\u00fc.wav")),
       ["import", "vox", "v.vox", "x.wav"], ["import", "vox", "8000", "v.vox"], ["import", "vox", "1", "8000", "v.vox", "x.wav"], ["import", "vox", "9223372036854775808", "v.vox", "x.wav"], ["import", "vox", "8000", "v.vox", "x.wav", "x.wav"],
       ["import", "pvf", "a.pvf"], ["import", "pvf", "8000", "a.pvf", "x.wav"], ["import", "pvf", "a.pvf", "-x.wav"], ["import", "wav", "a.wav", "x.wav"], ["import", "RAW", *RAW[2:]], ["import", "a.pvf", "x.wav"], ["import", "-raw", *RAW[2:]],
       ["export", "raw"], ["export", "raw", "a.wav"], ["export", "raw", "a.wav", "x.raw", "y.raw"], ["export", "raw", "pcm_s8", "a.wav", "x.raw"], ["export", "vox", "8000", "a.wav", "x.vox"], ["export", "pvf", "a.wav", "-x.pvf"],
       ["export", "wav", "a.wav", "x.raw"], ["export", "Vox", "a.wav", "x.vox"], ["export", "a.wav", "x.raw"], ["export", "-pcm16", "raw", "a.wav", "x.raw"], ["export", "raw", "-pcm16", "a.wav", "x.raw"], ["Import", *RAW[1:]], ["import", "--help", "raw"]]
for words in BAD:
    refused(words, "snd: bad words\n", 2)

# ---- every codec without a head, with a tail, into every kind
FRAMES = 9000
for kind in KINDS:
    for codec in CODECS:
        channels = min(2, kinds.MOST.get(kind, 2))
        held = numbers(codec, FRAMES * channels)
        align = channels * kinds.size(codec)
        put("in.raw", kinds.coded(codec, held) + b"\x7f" * (align - 1))
        words, wanted = ["import", "raw", codec, str(channels), str(RATE), "in.raw", f"out.{kinds.SUFFIX[kind]}"], class_of(kind, codec)
        if wanted:
            made(words, FRAMES, kinds.whole_file(kind, wanted, channels, RATE, held))
        else:
            refused(words, f"snd: {words[-1]}: error 18 BadPair\n")

# ---- every kind and codec without a head, as PVF and as VOX; and PVF into its kind again
PAIRS = [(kind, codec) for kind in kinds.HOLDS for codec in kinds.HOLDS[kind]] + [(kind, codec) for kind in ("wave", "w64") for codec in ("ima", "ms")]


def pvf(channels, bits, held):
    return f"PVF1\n{channels} {RATE} {bits}\n".encode() + b"".join((x % (1 << bits)).to_bytes(bits // 8, "big") for x in held)


def sound(kind, codec, channels, count):
    """A file of so many frames, and the numbers that it holds."""
    if codec not in ("ima", "ms"):
        held = numbers(codec, count * channels)
        return kinds.whole_file(kind, codec, channels, RATE, held), held
    size, given = blocks.align(channels, RATE), numbers("pcm_16_le", count * channels)
    return blocks.whole_file(kind, codec, channels, RATE, given), blocks.numbers_of(codec, channels, size, blocks.coded(codec, channels, size, given), count)


for kind, codec in PAIRS:
    channels = min(2, kinds.MOST.get(kind, 2))
    name = f"in.{kinds.SUFFIX[kind]}"
    content, held = sound(kind, codec, channels, FRAMES)
    put(name, content)
    bits = {8: 8, 16: 16}.get(kinds.width(codec), 32)
    plain = "pcm_16_le" if codec in ("ima", "ms") else codec
    made(["export", "raw", name, "out.raw"], FRAMES, kinds.coded(plain, held), f"{kind} {codec} without a head")
    widened = pvf(channels, bits, [x << bits - kinds.width(codec) for x in held])
    made(["export", "pvf", name, "out.pvf"], FRAMES, widened, f"{kind} {codec} as PVF")
    # (an odd number of frames)
    content, held = sound(kind, codec, 1, FRAMES - 1)
    put(name, content)
    made(["export", "vox", name, "out.vox"], FRAMES - 1, vox.coded(changed(codec, "pcm_16_le", held)), f"{kind} {codec} as VOX")
for bits in (8, 16, 32):
    held = numbers("pcm_s8" if bits == 8 else f"pcm_{bits}_be", FRAMES * 3)
    put("in.pvf", pvf(3, bits, held) + b"\1" * (3 * bits // 8 - 1))
    for kind in ("wave", "au", "w64", "rf64"):
        wanted = class_of(kind, "pcm_s8" if bits == 8 else f"pcm_{bits}_be")
        made(["import", "pvf", "in.pvf", f"out.{kinds.SUFFIX[kind]}"], FRAMES, kinds.whole_file(kind, wanted, 3, RATE, held), f"PVF of {bits} bits into {kind}")

# ---- longer files, which pass in many blocks: codes of every sort, and samples that leave the range of VOX
COUNT = 150_001
random.seed("imports")
codes = random.randbytes(COUNT)
put("in.vox", codes)
held = vox.numbers_of(codes)
made(["import", "vox", "8000", "in.vox", "out.wav"], 2 * COUNT, wave(1, kinds.coded("pcm_16_le", held)), f"{COUNT} bytes of VOX")
given = [random.randint(-32768, 32767) if at // 2000 % 3 else random.randint(-900, 900) for at in range(COUNT)]
put("in.wav", wave(1, kinds.coded("pcm_16_le", given)))
made(["export", "vox", "in.wav", "out.vox"], COUNT, vox.coded(given), f"{COUNT} samples as VOX")
put("in.wav", wave(1, kinds.coded("pcm_16_le", held)))
made(["export", "vox", "in.wav", "out.vox"], 2 * COUNT, vox.coded(held), f"{2 * COUNT} samples of VOX as VOX")
for codec in ("pcm_24_be", "ulaw", "pcm_u8"):
    held = numbers(codec, COUNT * 3)
    put("in.raw", kinds.coded(codec, held))
    content = kinds.whole_file("au", class_of("au", codec), 3, RATE, held)
    made(["import", "raw", codec, "3", str(RATE), "in.raw", "out.au"], COUNT, content, f"{COUNT} frames of {codec} without a head")
    made(["export", "raw", "out.au", "out.raw"], COUNT, kinds.coded(class_of("au", codec), held), f"{COUNT} frames of {codec} without a head, out again")
content, held = sound("wave", "ms", 2, COUNT)
put("in.wav", content)
made(["export", "raw", "in.wav", "out.raw"], COUNT, kinds.coded("pcm_16_le", held), f"{COUNT} frames of Microsoft ADPCM without a head")

# ---- what sox makes of the same, and what it has made
SOX = {"pcm_u8": "unsigned-integer -b 8", "pcm_s8": "signed-integer -b 8", "ulaw": "mu-law", "alaw": "a-law"}
SOX |= {codec: f"signed-integer -b {kinds.width(codec)} {'-B' if codec in kinds.BIG else '-L'}" for codec in (*kinds.LITTLE, *kinds.BIG)}
skipped = 0


def snd(words, frames):
    """The faults of a run that makes a file."""
    done = subprocess.run([program, *words], capture_output=True, check=False)
    return first_difference("standard output", done.stdout, f"ok {frames}\n".encode()) + [f"status {done.returncode}, {done.stderr}"] * (done.returncode != 0)


def sox(*words):
    subprocess.run(["sox", "-D", *words], check=True, capture_output=True)


def from_vox(name, to):
    sox("-t", "vox", "-r", "8000", name, "-e", "signed-integer", "-b", "16", to)


def same_sound(one, other):
    """The faults of two files that are to hold the same bytes of samples, with the same parameters."""
    a, b = kinds.stated(content_of(one)), kinds.stated(content_of(other))
    return ["other channels or another rate"] * (a.channels != b.channels or a.rate != b.rate) + first_difference("the samples", a.data, b.data)


TAKEN = 10
if shutil.which("sox"):
    for codec in CODECS:
        held = numbers(codec, FRAMES * 2)
        put("in.raw", kinds.coded(codec, held))
        wrong = snd(["import", "raw", codec, "2", str(RATE), "in.raw", "by-snd.wav"], FRAMES)
        # a law is compared by the numbers that it stands for
        if codec in kinds.LAWS:
            wrong += snd(["convert", "-pcm16", "by-snd.wav", "as-16.wav"], FRAMES)
            os.replace("as-16.wav", "by-snd.wav")
        bits = f"unsigned-integer -b 8" if kinds.width(codec) == 8 else f"signed-integer -b {kinds.width(codec)}"
        sox("-t", "raw", "-r", str(RATE), "-c", "2", "-e", *SOX[codec].split(), "in.raw", "-e", *bits.split(), "by-sox.wav")
        cases.case(f"{codec} without a head, as sox reads it", wrong + same_sound("by-snd.wav", "by-sox.wav"))
        wrong = snd(["export", "raw", "by-snd.wav", "by-snd.raw"], FRAMES)
        sox("by-snd.wav", "-t", "raw", "by-sox.raw")
        cases.case(f"{codec} without a head, as sox makes it", wrong + first_difference("the samples", content_of("by-snd.raw"), content_of("by-sox.raw")))

    # VOX: sox rounds the parts of a step together, and keeps 32767 where 2047 is the most; of codes for which that is the same
    state, agreed = vox.START, []
    for _ in range(200_000):
        step = blocks.STEPS[8 + state[1]]
        alike = [code for code in range(16) if vox.parts(step, code) == vox.whole(step, code) and -2048 <= state[0] + vox.parts(step, code) * (-1 if code & 8 else 1) <= 2047]
        agreed.append(random.choice(alike))
        state = vox.moved(state, agreed[-1])
    put("in.vox", bytes(one << 4 | other for one, other in zip(agreed[::2], agreed[1::2])))
    wrong = snd(["import", "vox", "8000", "in.vox", "by-snd.wav"], len(agreed)) + [f"no code {code}" for code in range(16) if code not in agreed]
    from_vox("in.vox", "by-sox.wav")
    cases.case("VOX, as sox decodes it", wrong + same_sound("by-snd.wav", "by-sox.wav"))
    # a tone that sox has coded: the sums are all that differs
    sox("-n", "-r", "8000", "-c", "1", "-b", "16", "tone.wav", "synth", "2", "sine", "300-3000", "vol", "0.4")
    sox("tone.wav", "-t", "vox", "tone.vox")
    wrong = snd(["import", "vox", "8000", "tone.vox", "by-snd.wav"], 16000)
    from_vox("tone.vox", "by-sox.wav")
    for name, distance in (("by-snd.wav", vox.parts), ("by-sox.wav", vox.whole)):
        wrong += first_difference(name, kinds.stated(content_of(name)).data, kinds.coded("pcm_16_le", vox.read(vox.START, content_of("tone.vox"), distance)[0]))
    cases.case("VOX of sox, but for how sums are rounded", wrong)
    # .. and one that is coded here: sox hears it as well as its own
    wrong = snd(["export", "vox", "tone.wav", "by-snd.vox"], 16000)
    from_vox("by-snd.vox", "by-snd.wav")
    tone, ours, theirs = (kinds.numbers_of("pcm_16_le", kinds.stated(content_of(name)).data) for name in ("tone.wav", "by-snd.wav", "by-sox.wav"))
    noise, most = (sum((x - y) ** 2 for x, y in zip(tone, it)) for it in (ours, theirs))
    cases.case("VOX that is made, as sox decodes it", wrong + [f"a noise of {noise} for {most}"] * (noise > 1.25 * most or len(ours) != 16000))
else:
    skipped += 2 * TAKEN + 3
    print("imports: skipped beside sox: sox is missing")

# ---- what sndfile-convert makes of the same
if shutil.which("sndfile-convert"):
    for codec, option in (("pcm_u8", "-pcms8"), ("pcm_16_le", "-pcm16"), ("pcm_32_le", "-pcm32")):
        content, held = sound("wave", codec, 2, FRAMES)
        put("in.wav", content)
        wrong = snd(["export", "pvf", "in.wav", "by-snd.pvf"], FRAMES)
        subprocess.run(["sndfile-convert", option, "in.wav", "by-sndfile.pvf"], check=True, capture_output=True)
        cases.case(f"PVF of {codec}, as sndfile-convert makes it", wrong + first_difference("the file", content_of("by-snd.pvf"), content_of("by-sndfile.pvf")))
        wrong = snd(["import", "pvf", "by-sndfile.pvf", "by-snd.wav"], FRAMES) + first_difference("the file", content_of("by-snd.wav"), content)
        subprocess.run(["sndfile-convert", option.replace("s8", "u8"), "by-snd.pvf", "by-sndfile.wav"], check=True, capture_output=True)
        cases.case(f"PVF of {codec}, as sndfile-convert reads it", wrong + same_sound("by-snd.wav", "by-sndfile.wav"))
else:
    skipped += 6
    print("imports: skipped beside sndfile-convert: sndfile-convert is missing")
cases.end(len(MADE) + len(WHOLE) + len(HEADS) + len(BAD_HEADS) + len(REFUSED) + len(LONG) + 4 + len(BAD) + len(KINDS) * len(CODECS) + 3 * len(PAIRS) + 12 + 3 + 6 + 1 + 2 * TAKEN + 3 + 6 - skipped, f", {skipped} skipped" if skipped else "")
