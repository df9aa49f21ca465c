#!/usr/bin/env -S python3 -B
"""`snd salvage` of the built program. Small files, each byte of what is made written out by hand, and what is refused, in its order; marks
at every place about the ends of the blocks that are read; files with damaged heads, and random bytes, against a model; files of 20 MB,
and that the time grows as the file does, also where marks stand close together. Files that sox, ffmpeg, libsndfile and the program itself
were killed over while they wrote: every frame that is in the file comes back, and sox, ffmpeg and libsndfile's programs read what was
made. Another spelling of the input's name loses nothing. Needs Python 3. Of the Debian packages sox, ffmpeg and sndfile-programs what is
missing is skipped, with a line for each; a program that is there and fails is a failure."""
import atexit
import ctypes.util
import os
import random
import shutil
import signal
import struct
import subprocess
import sys
import tempfile
import time

from lib import blocks, kinds, made_tools, remains, tool_runs
from lib.containers_words import PLAIN, TITLED
from lib.head import Cases, changed, ended, finished, first_difference, start, sums
from lib.readers import Readers, other_numbers
from lib.tool_runs import RATE

program = start()
cases = Cases("salvage")
readers = Readers("salvage")
BLOCK = 16384
FORMAT, NO_DATA, SAMPLES = PLAIN[12:36], b"data\0\0\0\0", PLAIN[44:]


def put(name, content):
    with open(name, "wb") as file:
        file.write(content)


def content_of(name):
    with open(name, "rb") as file:
        return file.read()


def wrong(content, answer, wanted):
    """The faults of what is made of bytes: so many frames and this file, or this refusal and no file."""
    put("in", content)
    if wanted is None:
        return tool_runs.wrong_run(program, ["salvage", "in", "out"], b"", f"snd: in: error {answer}\n".encode(), 1)
    return tool_runs.wrong_run(program, ["salvage", "in", "out"], f"ok {answer}\n".encode(), b"", 0, ("out", wanted))


def made(what, content, frames, wanted=PLAIN):
    cases.case(what, wrong(content, frames, wanted))


def refused(what, content, why):
    cases.case(what, wrong(content, why, None))


def by_model(content):
    """The faults of what is made of bytes, beside the model."""
    found = remains.salvaged(content)
    return wrong(content, found, None) if isinstance(found, str) else wrong(content, *found)


def wave(codec, channels, data, rate=RATE):
    return kinds.riff("wave", codec, channels, rate, data)


def body(tag, channels, rate, align, bits, more=b""):
    """A chunk with a format."""
    return kinds.chunk(b"fmt ", struct.pack("<HHIIHH", tag, channels, rate, 0, align, bits) + more)


# ---- by hand: a file is the one that is made of the good format and the data that are in it
put("out", b"as it was")
LONG = struct.pack("<I", 100) + FORMAT[8:] + bytes(84)
BY_HAND = [
    ("a head whose first 12 bytes are zero", bytes(12) + PLAIN[12:], 2), ("a whole file", PLAIN, 2), ("a head that was never filled in", PLAIN[:40] + bytes(4) + SAMPLES, 2),
    ("a byte before all, a frame that is cut off behind", b"x" + FORMAT + NO_DATA + SAMPLES + b"\5", 2), ("sizes of 2^32 - 1", PLAIN[:4] + b"\xff" * 4 + PLAIN[8:40] + b"\xff" * 4 + SAMPLES, 2),
    ("a format of 12 bits before the good one", body(1, 1, RATE, 2, 12) + FORMAT + NO_DATA + SAMPLES, 2), ("a format that is cut off by its size before the good one", b"fmt \0\0\0\1" + FORMAT + NO_DATA + SAMPLES, 2),
    ("a format below 16 bytes", b"fmt \x0f\0\0\0" + FORMAT + NO_DATA + SAMPLES, 2), ("the mark of a format, twice", b"fmt " + FORMAT + NO_DATA + SAMPLES, 2), ("a part of the mark", b"fmfmt" + FORMAT + NO_DATA + SAMPLES, 2),
    ("floating-point samples before the good format", body(3, 1, RATE, 4, 32) + FORMAT + NO_DATA + SAMPLES, 2), ("no channels", body(1, 0, RATE, 0, 16) + FORMAT + NO_DATA + SAMPLES, 2), ("257 channels", body(1, 257, RATE, 514, 16) + FORMAT + NO_DATA + SAMPLES, 2),
    ("no rate", body(1, 1, 0, 2, 16) + FORMAT + NO_DATA + SAMPLES, 2), ("another frame size", body(1, 1, RATE, 4, 16) + FORMAT + NO_DATA + SAMPLES, 2), ("another tag", body(0x55, 1, RATE, 1, 0) + FORMAT + NO_DATA + SAMPLES, 2),
    ("a format of ADPCM before the good one", made_tools.IMA[12:40] + FORMAT + NO_DATA + SAMPLES, 2), ("a format of 100 bytes, of which 64 are judged", b"fmt " + LONG + NO_DATA + SAMPLES, 2), ("data in the body of a format", b"fmt " + LONG[:24] + b"data" + LONG[28:] + NO_DATA + SAMPLES, 2),
    ("another chunk before the data", FORMAT + kinds.chunk(b"LIST", b"INFOISFT\4\0\0\0snd\0") + NO_DATA + SAMPLES, 2), ("part of the mark of data", FORMAT + b"datdadata\0\0\0\0" + SAMPLES, 2), ("data on an odd place", FORMAT + b"\0" + NO_DATA + SAMPLES, 2),
    ("the mark of data before the format", NO_DATA + FORMAT + NO_DATA + SAMPLES, 2), ("a second format behind the first", FORMAT + body(1, 2, 9000, 2, 8) + NO_DATA + SAMPLES, 2), ("the size of the format is odd", b"fmt \x11\0\0\0" + FORMAT[8:] + b"\0" + NO_DATA + SAMPLES, 2),
]
for what, content, frames in BY_HAND:
    made(what, content, frames)
EXTENSIBLE = struct.pack("<HHIH", 22, 24, 0, 1) + remains.SUBFORMAT
OTHERS = [
    ("chunks behind the sound are taken for sound", TITLED, 13, wave("pcm_16_le", 1, TITLED[44:])), ("no frames", FORMAT + NO_DATA, 0, wave("pcm_16_le", 1, b"")), ("less than a frame", FORMAT + NO_DATA + b"\1", 0, wave("pcm_16_le", 1, b"")),
    ("a second mark of data", FORMAT + NO_DATA + NO_DATA, 4, wave("pcm_16_le", 1, NO_DATA)), ("a format in the sound", FORMAT + NO_DATA + FORMAT, 12, wave("pcm_16_le", 1, FORMAT)), ("a format in the sound of a file of ADPCM", made_tools.IMA + FORMAT + NO_DATA + SAMPLES, 2, PLAIN),
    ("an extensible format", body(0xFFFE, 1, RATE, 3, 24, EXTENSIBLE) + NO_DATA + b"\1\0\0\xff\xff\xff", 2, wave("pcm_24_le", 1, b"\1\0\0\xff\xff\xff")), ("an extensible format of 39 bytes", body(0xFFFE, 1, RATE, 3, 24, EXTENSIBLE[:23]) + FORMAT + NO_DATA + SAMPLES, 2, PLAIN),
    ("an extensible format of another GUID", body(0xFFFE, 1, RATE, 3, 24, EXTENSIBLE[:-1] + b"r") + FORMAT + NO_DATA + SAMPLES, 2, PLAIN), ("mu-law, with a negative zero", body(7, 1, RATE, 1, 8) + NO_DATA + b"\x7f\xff\0", 3, wave("ulaw", 1, b"\xff\xff\0")),
    ("A-law, whose bits are not judged", body(6, 2, RATE, 2, 77) + NO_DATA + b"\x55\xd5\0\1\2", 2, wave("alaw", 2, b"\x55\xd5\0\1")), ("256 channels of 32 bits", body(1, 256, 4294967295, 1024, 32) + NO_DATA + bytes(2047), 1, wave("pcm_32_le", 256, bytes(1024), 4294967295)),
    ("8 bits in two channels", body(1, 2, 1, 2, 8) + NO_DATA + b"\1\2\3", 1, wave("pcm_u8", 2, b"\1\2", 1)), ("an RF64 file", kinds.riff("rf64", "pcm_16_le", 2, RATE, SAMPLES * 3), 3, wave("pcm_16_le", 2, SAMPLES * 3)),
]
for what, content, frames, wanted in OTHERS:
    made(what, content, frames, wanted)
REFUSED = [
    ("an empty file", b"", "6 NoFormat"), ("no mark", bytes(100_000), "6 NoFormat"), ("the first 20 bytes of a format", FORMAT[:20], "6 NoFormat"), ("a format without its last byte", FORMAT[:-1], "6 NoFormat"), ("a mark alone", b"fmt ", "6 NoFormat"), ("a size alone", b"fmt \x10\0\0\0", "6 NoFormat"),
    ("a mark in capitals", b"FMT " + FORMAT[4:] + NO_DATA, "6 NoFormat"), ("IMA ADPCM", made_tools.IMA, "6 NoFormat"), ("Microsoft ADPCM", made_tools.MICROSOFT, "6 NoFormat"), ("floating-point samples", body(3, 1, RATE, 4, 32) + NO_DATA + bytes(8), "6 NoFormat"),
    ("Wave64", kinds.w64("pcm_16_le", 1, RATE, SAMPLES), "6 NoFormat"), ("AU", made_tools.SMALL, "6 NoFormat"), ("8SVX", kinds.svx(RATE, b"\1\2"), "6 NoFormat"), ("data alone", NO_DATA + SAMPLES, "6 NoFormat"),
    ("no data", FORMAT, "7 NoData"), ("the mark of data, and nothing behind it", FORMAT + b"data", "7 NoData"), ("three letters of it", FORMAT + b"dat", "7 NoData"), ("three bytes behind it", FORMAT + NO_DATA[:-1], "7 NoData"), ("data before the format", NO_DATA + FORMAT, "7 NoData"),
    ("data in the body of the format alone", b"fmt " + LONG[:24] + b"data" + LONG[28:], "7 NoData"), ("data in capitals", FORMAT + b"DATA" + bytes(8), "7 NoData"), ("a first format without data before a second one within its body", b"fmt " + LONG[:24] + FORMAT + LONG[48:], "7 NoData"),
]
for what, content, why in REFUSED:
    refused(what, content, why)

# ---- the order of what is refused, and names
put("e.wav", b"")
put("a.wav", PLAIN)
WORDS = [
    (["salvage", "no.wav", "no.wav"], "snd: no.wav: error 50 SameName\n", 1), (["salvage", "e.wav", "e.wav"], "snd: e.wav: error 50 SameName\n", 1), (["salvage", "no.wav", "out"], "snd: no.wav: error 56 MissingFile\n", 1),
    (["salvage"], "snd: bad words\n", 2), (["salvage", "a.wav"], "snd: bad words\n", 2), (["salvage", "a.wav", "out", "c"], "snd: bad words\n", 2), (["salvage", "-a", "a.wav", "out"], "snd: bad words\n", 2), (["salvage", "a.wav", "-out"], "snd: bad words\n", 2),
    (["salvage", "-", "out"], "snd: bad words\n", 2), (["Salvage", "a.wav", "out"], "snd: bad words\n", 2), (["salvage", "a.wav", "o ut"], "snd: bad words\n", 2), (["salvage", "", "out"], "snd: bad words\n", 2),
]
for words, text, status in WORDS:
    cases.case(" ".join(words), tool_runs.wrong_run(program, words, b"", text.encode(), status))
# any suffix will do, and none
for name in ("x.au", "x.xyz", "x", "x.wav"):
    cases.case(f"salvage a.wav {name}", tool_runs.wrong_run(program, ["salvage", "a.wav", name], b"ok 2\n", b"", 0, (name, PLAIN)))
# another spelling of the input is a fault, and nothing is lost
os.link("a.wav", "hard.wav")
os.symlink("a.wav", "soft.wav")
os.mkdir("folder")
SPELLED = ("./a.wav", "hard.wav", "soft.wav", "folder/../a.wav", os.path.abspath("a.wav"))
for name in SPELLED:
    cases.case(f"salvage a.wav {name}", tool_runs.wrong_run(program, ["salvage", "a.wav", name], b"", b"", 3))
for words in (["salvage", "a.wav", "folder"], ["salvage", "folder", "out"], ["salvage", "a.wav", "none/out"]):
    cases.case(" ".join(words), tool_runs.wrong_run(program, words, b"", b"", 3))
# holes on the disk, in a folder whose sums are not taken
holes = tempfile.mkdtemp()
atexit.register(shutil.rmtree, holes, True)
LONGEST = 4294967295 - 36
for size, frames in ((LONGEST + 2, None), (1 << 33, None)):
    put(f"{holes}/in", FORMAT + NO_DATA)
    os.truncate(f"{holes}/in", 32 + size)
    cases.case(f"{size} bytes of sound", tool_runs.wrong_run(program, ["salvage", f"{holes}/in", "out"], b"", b"snd: out: error 26 ContainerFull\n", 1))
os.remove(f"{holes}/in")

# ---- marks about the ends of the blocks that are read, the last byte of a block, and the last three
ABOUT = [*range(BLOCK - 34, BLOCK + 5), *range(2 * BLOCK - 8, 2 * BLOCK + 3)]
found = [fault for at in ABOUT for fault in by_model(b"f" * at + FORMAT + NO_DATA + SAMPLES)]
cases.case("a format at each place about the ends of blocks", found)
found = [fault for at in ABOUT for fault in by_model(FORMAT + b"d" * (at - len(FORMAT)) + NO_DATA + SAMPLES)]
cases.case("data at each place about the ends of blocks", found)
found = [fault for size in range(BLOCK - 40, BLOCK + 8) for fault in by_model((b"fmt \x10" * BLOCK)[:size] + FORMAT + NO_DATA)]
cases.case("a format that ends a file of each size about a block", found)

# ---- damaged heads and random bytes, against the model
random.seed(20)
HEADS = [PLAIN, TITLED, made_tools.CHUNKED, made_tools.STEREO, made_tools.IMA, kinds.riff("rf64", "pcm_24_le", 2, 48000, bytes(range(60))), wave("ulaw", 1, bytes(range(256))), wave("alaw", 2, bytes(range(256))),
         wave("pcm_32_le", 3, bytes(range(36))), body(0xFFFE, 2, RATE, 4, 16, EXTENSIBLE) + NO_DATA + bytes(range(50))]


def damaged():
    """A file whose head was damaged in a few ways."""
    b = bytearray(random.choice(HEADS))
    for _ in range(random.randint(1, 4)):
        at = random.randrange(len(b) + 1)
        way = random.randrange(6)
        if way == 0 and at < len(b):
            b[at] = random.choice((0, 1, 2, 16, 255, random.randrange(256)))
        elif way == 1:
            b[at:at] = random.choice((b"fmt ", b"data", b"fmt \x10\0\0\0", FORMAT, FORMAT[:20], NO_DATA, b"d", b"fm", bytes(5)))
        elif way == 2:
            del b[at:at + random.randrange(12)]
        elif way == 3:
            del b[at:]
        elif way == 4:
            b[:0] = random.choice((b"", b"x" * random.randrange(40), random.choice(HEADS)))
        else:
            b += random.choice((FORMAT, NO_DATA, SAMPLES, random.choice(HEADS)))
    return bytes(b)


answers = {}
for at in range(12):
    found = []
    for _ in range(40):
        content = damaged()
        why = remains.salvaged(content)
        answers[why if isinstance(why, str) else "made"] = answers.get(why if isinstance(why, str) else "made", 0) + 1
        found += [f"{fault} of {content.hex()}" for fault in by_model(content)]
    cases.case(f"damaged heads, {at}", found)
cases.case("damaged heads of each sort", [f"{answers}"] * (len(answers) != 3 or min(answers.values()) < 20))
for size in (1, 1000, 100_000):
    cases.case(f"{size} random bytes", by_model(random.randbytes(size)))
LETTERS = b"fmt dat\x10\0\1"
cases.case("random letters of the marks", [fault for _ in range(40) for fault in by_model(bytes(random.choices(LETTERS, k=3000)) + random.choice((b"", FORMAT, FORMAT + NO_DATA)))])

# ---- large files
MEGABYTE = 1 << 20
noise = random.randbytes(20 * MEGABYTE)
cases.case("20 MB of random bytes", by_model(noise))
cases.case("20 MB of sound behind a head", by_model(bytes(12) + FORMAT + NO_DATA + noise))
cases.case("a format and data behind 20 MB", by_model(noise + FORMAT + NO_DATA + SAMPLES))
cases.case("20 MB between the format and the data", by_model(FORMAT + noise + NO_DATA + SAMPLES))
# marks that stand close together: formats that do not read, formats whose sizes go far, and marks of data that are not whole
DENSE = {"formats that do not read": b"fmt \x10\0\0\0", "formats whose bodies are long": b"fmt \0\0\4\0", "letters of a mark": b"fmtf", "letters of another mark": FORMAT + b"datd" * 1000}


def seconds(content):
    """The seconds of one processor that the program takes of bytes, the least of three runs."""
    put(f"{holes}/in", content)
    least = 60.0
    for _ in range(3):
        child = subprocess.Popen([program, "salvage", f"{holes}/in", f"{holes}/out"], stdin=subprocess.DEVNULL, stdout=subprocess.DEVNULL, stderr=subprocess.DEVNULL)
        _, status, took = os.wait4(child.pid, 0)
        child.returncode = os.waitstatus_to_exitcode(status)
        least = min(least, took.ru_utime + took.ru_stime)
    return least


for what, piece in DENSE.items():
    small, large = (seconds(piece * (size // len(piece))) for size in (MEGABYTE // 2, 4 * MEGABYTE))
    # eight times as much takes eight times as long, and a program needs some time to start
    cases.case(f"a time that grows as the file does: {what}", [f"{small:.3f} seconds of 0.5 MB, {large:.3f} of 4 MB"] * (large > 20 * (small + 0.01)))
    cases.case(f"4 MB of {what}", by_model((piece * (4 * MEGABYTE // len(piece)))[:4 * MEGABYTE] + FORMAT + NO_DATA + SAMPLES))

# ---- files over which their writers were killed
FED = 300_000
skipped = 0


def killed(command, name, fed):
    """Starts a program that makes a file of what is fed to it, kills it once the file does not grow any more, and says how it went."""
    writer = subprocess.Popen(command, stdin=subprocess.PIPE, stdout=subprocess.DEVNULL, stderr=subprocess.DEVNULL)
    try:
        writer.stdin.write(fed)
        writer.stdin.flush()
        size, since = -1, time.monotonic()
        while time.monotonic() - since < 30:
            now = os.path.getsize(name) if os.path.exists(name) else 0
            if now == size and now > len(fed) // 2:
                return [] if writer.poll() is None else ["it has ended by itself"]
            size = now
            time.sleep(0.3)
        return [f"it has written {size} bytes alone"]
    finally:
        os.kill(writer.pid, signal.SIGKILL)
        writer.wait()
        writer.stdin.close()


def rescued(what, name, codec, channels, samples, faults=()):
    """A case: what is salvaged of a file has the first of these samples, as many as are in it; and other programs read that."""
    content = content_of(name)
    sound = remains.sought(content)
    if faults or isinstance(sound, str):
        cases.case(what, [*faults, f"{sound}" if isinstance(sound, str) else f"{len(content)} bytes"])
        return
    align = channels * kinds.size(codec)
    data = sound[3][:len(sound[3]) // align * align]
    faults = [f"it has {sound[:3]}"] * (sound[:3] != (codec, channels, RATE)) + first_difference("what was written", data, samples[:len(data)])
    faults += [f"{len(data)} bytes of sound alone"] * (len(data) < len(samples) // 2)
    before = sums()
    done = finished([program, "salvage", name, "saved.wav"])
    faults += ended(done, f"ok {len(data) // align}\n".encode(), b"", 0) + changed(before, sums(), {"./saved.wav"})
    faults += first_difference("saved.wav", content_of("saved.wav"), wave(codec, channels, data))
    it, wanted = kinds.Stated("wave", codec, channels, RATE, data), kinds.numbers_of(codec, data)
    faults += [f"{tool} says {found}" for tool, found in readers.said("saved.wav", it).items() if found != [channels, RATE, it.frames][:len(found)]]
    faults += [f"{tool} {fault}" for tool, numbers in readers.decoded("saved.wav", it).items() for fault in other_numbers(numbers, wanted)]
    cases.case(what, faults)


def fed(codec, channels):
    count = FED // (channels * kinds.size(codec)) * channels
    return kinds.coded(codec, tool_runs.numbers(codec, count))


BY_SOX = [("pcm_16_le", 2, "signed-integer", 16), ("pcm_24_le", 1, "signed-integer", 24), ("pcm_u8", 1, "unsigned-integer", 8), ("ulaw", 2, "mu-law", 8)]
for codec, channels, encoding, bits in BY_SOX:
    if not shutil.which("sox"):
        skipped += 1
        continue
    words = ["-t", "raw", "-r", str(RATE), "-c", str(channels), "-e", encoding, "-b", str(bits)]
    faults = killed(["sox", "-D", *words, "-", "killed.wav"], "killed.wav", fed(codec, channels))
    rescued(f"{codec}, {channels} channels, of sox, which was killed", "killed.wav", codec, channels, fed(codec, channels), faults)
    os.remove("killed.wav")
BY_FFMPEG = [("pcm_16_le", 2, "s16le", ()), ("pcm_24_le", 2, "s24le", ()), ("pcm_16_le", 1, "s16le", ("-rf64", "always")), ("alaw", 1, "alaw", ("-rf64", "auto"))]
for codec, channels, form, options in BY_FFMPEG:
    if not shutil.which("ffmpeg"):
        skipped += 1
        continue
    words = ["ffmpeg", "-v", "error", "-f", form, "-ar", str(RATE), "-ac", str(channels), "-i", "pipe:0", "-c:a", "copy", *options, "-y", "killed.wav"]
    faults = killed(words, "killed.wav", fed(codec, channels))
    rescued(f"{codec}, {channels} channels, of ffmpeg {' '.join(options)}, which was killed", "killed.wav", codec, channels, fed(codec, channels), faults)
    os.remove("killed.wav")

# libsndfile, by a program that ends itself before the file is closed
WRITER = """
import ctypes, os, signal, sys
class Info(ctypes.Structure):
    _fields_ = [("frames", ctypes.c_int64), ("rate", ctypes.c_int), ("channels", ctypes.c_int), ("format", ctypes.c_int), ("sections", ctypes.c_int), ("seekable", ctypes.c_int)]
library = ctypes.CDLL(sys.argv[1])
library.sf_open.restype, library.sf_write_raw.restype = ctypes.c_void_p, ctypes.c_int64
info = Info(0, int(sys.argv[3]), int(sys.argv[4]), int(sys.argv[5], 16), 0, 0)
file = library.sf_open(b"killed.wav", 0x20, ctypes.byref(info))
with open(sys.argv[2], "rb") as fed:
    samples = fed.read()
if file and library.sf_write_raw(ctypes.c_void_p(file), samples, ctypes.c_int64(len(samples))) == len(samples):
    os.kill(os.getpid(), signal.SIGKILL)
sys.exit(1)
"""
LIBRARY = ctypes.util.find_library("sndfile")
BY_SNDFILE = [("WAVE", "pcm_16_le", 2, 0x010002), ("WAVE", "pcm_32_le", 1, 0x010004), ("WAVE", "ulaw", 1, 0x010010), ("extensible WAVE", "pcm_24_le", 2, 0x130003), ("RF64", "pcm_16_le", 1, 0x220002)]
if not LIBRARY:
    print("salvage: skipped: files of libsndfile, which is missing")
for kind, codec, channels, form in BY_SNDFILE:
    if not LIBRARY:
        skipped += 1
        continue
    put("fed", fed(codec, channels))
    done = subprocess.run([sys.executable, "-c", WRITER, LIBRARY, "fed", str(RATE), str(channels), hex(form)], stdin=subprocess.DEVNULL, capture_output=True)
    rescued(f"{kind} of {codec}, {channels} channels, of libsndfile, which was killed", "killed.wav", codec, channels, fed(codec, channels), [f"{done.stderr}"] * (done.returncode != -signal.SIGKILL))
    os.remove("killed.wav")

# the program itself, once each line was answered
for kind, codec, channels in (("wave", "pcm_16_le", 2), ("wave", "alaw", 1), ("rf64", "pcm_24_le", 1)):
    samples = fed(codec, channels)[:4800]
    numbers = kinds.numbers_of(codec, samples)
    lines = [f"create {kind} {codec} {channels} {RATE} killed.wav"] + [f"write {' '.join(map(str, numbers[at:at + 80]))}" for at in range(0, len(numbers), 80)]
    writer = subprocess.Popen([program, "script"], stdin=subprocess.PIPE, stdout=subprocess.PIPE)
    writer.stdin.write("".join(f"{line}\n" for line in lines).encode())
    writer.stdin.flush()
    replies = [writer.stdout.readline() for _ in lines]
    os.kill(writer.pid, signal.SIGKILL)
    writer.communicate()
    rescued(f"{kind} of {codec}, {channels} channels, of the program itself, which was killed", "killed.wav", codec, channels, samples, [f"{it}" for it in replies if not it.startswith(b"ok ")])
    os.remove("killed.wav")

# what sox and ffmpeg make, with its first 12 bytes overwritten, is what they decode of the whole
for tool in ("sox", "ffmpeg"):
    if not shutil.which(tool):
        skipped += 1
        continue
    if tool == "sox":
        subprocess.run(["sox", "-D", "-n", "-r", str(RATE), "-c", "2", "-b", "16", "tone.wav", "synth", "1", "sine", "440", "sine", "300"], check=True, capture_output=True)
    else:
        subprocess.run(["ffmpeg", "-v", "error", "-f", "lavfi", "-i", f"sine=440:sample_rate={RATE}:duration=1", "-ac", "2", "-y", "tone.wav"], check=True, capture_output=True)
    whole = kinds.stated(content_of("tone.wav"))
    put("killed.wav", bytes(12) + content_of("tone.wav")[12:])
    rescued(f"a file of {tool} whose first bytes are lost", "killed.wav", "pcm_16_le", 2, whole.data)
    os.remove("killed.wav")
cases.end(len(BY_HAND) + len(OTHERS) + len(REFUSED) + len(WORDS) + 4 + len(SPELLED) + 3 + 2 + 3 + 12 + 1 + 3 + 1 + 4 + 2 * len(DENSE) + len(BY_SOX) + len(BY_FFMPEG) + len(BY_SNDFILE) + 3 + 2 - skipped,
          f", {skipped} skipped" if skipped else "")
