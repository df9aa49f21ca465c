#!/usr/bin/env -S python3 -B
"""`snd deinterleave` of the built program. Small files, each byte of what is made written out by hand, and what is refused, in its order.
Files of two and three channels of every kind and codec are split, and each file that is made is compared byte for byte with what it is
to be; `interleave` makes of these the file that was split, and `sox -M` its samples. Files of every number of frames about the blocks
that are read, of up to 64 channels, and of none; files of IMA and Microsoft ADPCM at each size of a block, against a model; files of sox,
ffmpeg and libsndfile, against what sox, ffmpeg and sndfile-deinterleave make of each channel. Another spelling of a name, a folder and a
disk that is full lose nothing. Needs Python 3. Of the Debian packages sox, ffmpeg and sndfile-programs what is missing is skipped, with
a line for each; a program that is there and fails is a failure."""
import os
import random
import shutil
import struct
import subprocess

from lib import blocks, kinds, made_tools
from lib.containers_words import PLAIN, TITLED
from lib.head import SECONDS, Cases, first_difference, run, start, sums
from lib.readers import Readers, other_numbers
from lib.tool_runs import RATE, numbers

program = start()
os.mkdir("run")
os.chdir("run")
cases = Cases("deinterleave")
readers = Readers("deinterleave")
PAIRS = [(kind, codec) for kind in kinds.HOLDS for codec in kinds.HOLDS[kind] if kinds.MOST.get(kind, 3) > 1]
# a number of frames of which no kind pads the data, and that goes over no block
FRAMES = 704
BAD_WORDS = "snd: bad words\n"


def put(name, content):
    with open(name, "wb") as file:
        file.write(content)


def content_of(name):
    with open(name, "rb") as file:
        return file.read()


def wrong_run(words, out, err, status, made=None):
    """The faults of a run that makes these files and no others, each of which is to hold its bytes."""
    made = made or {}
    wrong = run(program, words, b"", out.encode(), err.encode(), status, {f"./{name}" for name in made})
    for name, wanted in made.items():
        wrong += first_difference(name, content_of(name), wanted) if os.path.exists(name) else [f"there is no {name}"]
    return wrong


def clear():
    for name in os.listdir("."):
        os.remove(name)


def split(channels, found):
    """The numbers of each channel."""
    return [found[channel::channels] for channel in range(channels)]


def beside(columns):
    return [x for frame in zip(*columns) for x in frame]


def names_for(kind, channels):
    return [f"o{at}.{kinds.SUFFIX[kind]}" for at in range(channels)]


def splits(kind, codec, channels, found, rate=RATE):
    """The faults of the files that are made of one with these numbers, and of what is made of them again; they stay in the folder."""
    source = f"in.{kinds.SUFFIX[kind]}"
    put(source, kinds.whole_file(kind, codec, channels, rate, found))
    names, columns = names_for(kind, channels), split(channels, found)
    made = {name: kinds.whole_file(kind, codec, 1, rate, column) for name, column in zip(names, columns)}
    wrong = wrong_run(["deinterleave", source, *names], f"ok {len(columns[0])}\n", "", 0, made)
    if not wrong and channels > 1:
        wrong = wrong_run(["interleave", *names, "-o", "again"], f"ok {len(columns[0])}\n", "", 0, {"again": kinds.whole_file(kind, codec, channels, rate, found)})
    return wrong


def merged(names, it):
    """The numbers that sox decodes of files side by side, each a channel."""
    raw = subprocess.run(["sox", "-M", *names, "-t", "raw", "-e", "signed-integer", "-b", "32", "-L", "-"], check=True, capture_output=True).stdout
    return [x >> 32 - kinds.width(it.codec) for x in struct.unpack(f"<{len(raw) // 4}i", raw)]


# ---- by hand
BOTH = b"RIFF,\0\0\0WAVEfmt \x10\0\0\0\x01\0\x02\0@\x1f\0\0\0}\0\0\x04\0\x10\0data\x08\0\0\0\x01\0\x05\0\xff\xff\0\0"
RIGHT = PLAIN[:44] + b"\x05\0\0\0"
AU = b".snd\0\0\0\x18\0\0\0%c\0\0\0\x01\0\0\x1f@\0\0\0%c"
LAW, LAW_LEFT, LAW_RIGHT = AU % (4, 2) + b"\x7f\xff\x80\0", AU % (2, 1) + b"\xff\x80", AU % (2, 1) + b"\xff\0"
# an extensible head, a text before the data and one behind them, and a frame that is cut off
GUID = b"\0\0\0\0\x10\0\x80\0\0\xaa\0\x38\x9b\x71"
EXTENSIBLE = b"fmt (\0\0\0\xfe\xff\x02\0@\x1f\0\0\x80>\0\0\x02\0\x08\0\x16\0\x08\0\x03\0\0\0\x01\0" + GUID
CHUNKS = b"WAVE" + EXTENSIBLE + kinds.chunk(b"LIST", b"INFOINAM\2\0\0\0A\0") + b"data\x03\0\0\0\x80\x81\x82\0" + kinds.chunk(b"LIST", b"INFOIART\2\0\0\0B\0")
RICH = b"RIFF" + struct.pack("<I", len(CHUNKS)) + CHUNKS
BYTE = b"RIFF&\0\0\0WAVEfmt \x10\0\0\0\x01\0\x01\0@\x1f\0\0@\x1f\0\0\x01\0\x08\0data\x01\0\0\0%c\0"
# of one channel: coded anew, in blocks of the size that this library gives them
AGAIN = blocks.whole_file("wave", "ima", 1, RATE, blocks.numbers_of("ima", 1, 8, made_tools.IMA[-8:], 9))
BY_HAND = [
    ("row 20's file, split again", BOTH, ["l.wav", "r.wav"], 2, [PLAIN, RIGHT]), ("mu-law, with a negative zero", LAW, ["l.au", "r.au"], 2, [LAW_LEFT, LAW_RIGHT]),
    ("one channel", PLAIN, ["o.wav"], 2, [PLAIN]), ("one channel, with a title, which stays behind", TITLED, ["o.wav"], 2, [PLAIN]), ("a negative zero of one channel", AU % (2, 1) + b"\x7f\xff", ["o.au"], 2, [AU % (2, 1) + b"\xff\xff"]),
    ("chunks, an extensible head and part of a frame stay behind", RICH, ["l.wav", "r.wav"], 1, [BYTE % 0x80, BYTE % 0x81]), ("any suffix, and none", BOTH, ["l.au", "r"], 2, [PLAIN, RIGHT]), ("one frame", made_tools.STEREO, ["l.wav", "r.wav"], 1, [made_tools.ONE[:44] + b"\1\0", made_tools.ONE[:44] + b"\2\0"]),
    ("a block of IMA ADPCM of one channel", made_tools.IMA, ["o.wav"], 9, [AGAIN]), ("a file of IMA ADPCM without frames", made_tools.BLOCKS, ["o.wav"], 0, [made_tools.BLOCKS]),
]
for what, content, names, frames, wanted in BY_HAND:
    put("c.wav", content)
    cases.case(what, wrong_run(["deinterleave", "c.wav", *names], f"ok {frames}\n", "", 0, dict(zip(names, wanted))))
    clear()

# ---- what is refused, in its order, changes nothing: the outputs stand there, or do not
CONTENTS = {"a.wav": PLAIN, "c.wav": BOTH, "m.au": LAW, "p.wav": made_tools.BAD, "t.txt": b"no sound\n", "e.wav": b"", "aiff": b"FORM\0\0\0\4AIFF", "h.wav": PLAIN[:20], "l.wav": b"as it was", "z": b""}
# two channels of Microsoft ADPCM, of whose three blocks the last but one has no such predictor
good, bad = blocks.ms_block(2, list(range(16))), b"\7\0" + bytes(18)
CONTENTS["b.wav"] = blocks.file_of_blocks("wave", "ms", 2, RATE, 20, good + bad + good, 24)
REFUSED = [
    # equal names come first, the later one by its place
    (["c.wav", "l.wav", "l.wav"], "l.wav: error 50 SameName"), (["c.wav", "l.wav", "c.wav"], "c.wav: error 50 SameName"), (["c.wav", "c.wav", "l.wav"], "c.wav: error 50 SameName"), (["no", "no"], "no: error 50 SameName"),
    (["no", "x", "y", "y", "x"], "y: error 50 SameName"), (["no", "x", "y", "x", "y"], "x: error 50 SameName"), (["t.txt", "x", "x", "t.txt"], "x: error 50 SameName"), (["no", "x", "no", "x"], "no: error 50 SameName"), (["a.wav", *map(str, range(63)), "7"], "7: error 50 SameName"),
    # then the input
    (["no", "l.wav"], "no: error 56 MissingFile"), (["no", "x", "y", "w"], "no: error 56 MissingFile"), (["t.txt", "x"], "t.txt: error 1 NotSound"), (["e.wav", "x", "y"], "e.wav: error 1 NotSound"), (["aiff", "x", "y"], "aiff: error 2 FloatRate"), (["h.wav", "x", "y"], "h.wav: error 6 NoFormat"),
    # then the number of the outputs
    (["c.wav", "l.wav"], "c.wav: error 68 WrongCount"), (["c.wav", "l.wav", "x", "y"], "c.wav: error 68 WrongCount"), (["a.wav", "l.wav", "x"], "a.wav: error 68 WrongCount"), (["m.au", "x"], "m.au: error 68 WrongCount"), (["b.wav", "x"], "b.wav: error 68 WrongCount"), (["p.wav", "x", "y"], "p.wav: error 68 WrongCount"),
    # and a bad block last
    (["p.wav", "x"], "p.wav: error 35 BadBlock"), (["b.wav", "x", "y"], "b.wav: error 35 BadBlock"), (["b.wav", "l.wav", "z"], "b.wav: error 35 BadBlock"),
]
for name, content in CONTENTS.items():
    put(name, content)
for words, err in REFUSED:
    cases.case(f"deinterleave {' '.join(words)}", wrong_run(["deinterleave", *words], "", f"snd: {err}\n", 1))
WORDS = [["deinterleave"], ["deinterleave", "c.wav"], ["deinterleave", "c.wav", *map(str, range(65))], ["deinterleave", "-x", "c.wav", "x", "y"], ["deinterleave", "c.wav", "x", "-o", "y"], ["deinterleave", "c.wav", "x", "-y"], ["deinterleave", "-", "x"],
         ["deinterleave", "c.wav", "x", ""], ["deinterleave", "", "x"], ["deinterleave", "c.wav", "x y", "z"], ["Deinterleave", "c.wav", "x", "y"], ["deinterleave", "c.wav", "x", "y", "--help"], ["deinterleave", "c.wav", "x", "n" * 256], ["deinterleave", "c.wav", "x", "\u00e4"]]
for words in WORDS:
    cases.case(" ".join(words)[:60], wrong_run(words, "", BAD_WORDS, 2))
cases.case("a name of 255 letters", wrong_run(["deinterleave", "no", "n" * 255], "", "snd: no: error 56 MissingFile\n", 1))
# data for which the head of an output has no room are a hole on the disk, in a folder whose sums are not taken
os.mkdir("../holes")
LONG = [("pcm_u8", 4294967261, 1, "o.wav: error 26 ContainerFull"), ("ulaw", 4294967246, 1, "o.wav: error 26 ContainerFull"), ("ulaw", 4294967246, 2, "../holes/in: error 68 WrongCount")]
for codec, size, outputs, err in LONG:
    head = b"WAVE" + kinds.chunk(b"fmt ", kinds.format_body(codec, 1, RATE)) + b"data" + struct.pack("<I", size)
    put("../holes/in", b"RIFF" + struct.pack("<I", min(len(head) + size, 4294967295)) + head)
    os.truncate("../holes/in", 8 + len(head) + size)
    cases.case(f"{size} bytes of {codec}", wrong_run(["deinterleave", "../holes/in", *["o.wav", "x"][:outputs]], "", f"snd: {err}\n", 1))
shutil.rmtree("../holes")

# ---- another spelling of a name is a fault, and nothing is lost
os.mkdir("folder")
put("r.wav", b"as it was, too")
os.link("r.wav", "hard.wav")
os.symlink("r.wav", "soft.wav")
SPELLED = ["./r.wav", "hard.wav", "soft.wav", "folder/../r.wav", os.path.abspath("r.wav")]
for name in SPELLED:
    for names in (["r.wav", name], [name, "r.wav"]):
        cases.case(f"an output under two names, {' '.join(names)}", wrong_run(["deinterleave", "c.wav", *names], "", "", 3))
os.link("c.wav", "twin.wav")
for name in ("./c.wav", "twin.wav"):
    for names in (["l.wav", name], [name, "l.wav"]):
        cases.case(f"the input under two names, {' '.join(names)}", wrong_run(["deinterleave", "c.wav", *names], "", "", 3))
for names in (["l.wav", "folder"], ["folder", "l.wav"], ["l.wav", "none/r.wav"], ["none/l.wav", "r.wav"]):
    cases.case(f"deinterleave c.wav {' '.join(names)}", wrong_run(["deinterleave", "c.wav", *names], "", "", 3))
# what was missing is there, and empty
cases.case("an output under two names, neither of which is there", wrong_run(["deinterleave", "c.wav", "new.wav", "./new.wav"], "", "", 3, {"new.wav": b""}))
os.rmdir("folder")
clear()

# ---- a disk that is full: the outputs before the one that did not fit stand whole, and all else stays
many = 0
os.mkdir("full")
if os.geteuid() == 0 and subprocess.run(["mount", "-t", "tmpfs", "-o", "size=64k", "none", "full"], capture_output=True).returncode == 0:
    many += 1
    found = numbers("pcm_16_le", 200_000)
    put("long.wav", kinds.whole_file("wave", "pcm_16_le", 2, RATE, found))
    before = sums()
    done = subprocess.run([program, "deinterleave", "long.wav", "l.wav", "full/r.wav"], capture_output=True, timeout=SECONDS)
    after = {name: it for name, it in sums().items() if name not in ("./full/r.wav", "./l.wav")}
    subprocess.run(["umount", "full"], check=True)
    wrong = [repr(done)] * ((done.returncode, done.stdout, done.stderr) != (3, b"", b"")) + ["other files changed"] * (before != after)
    cases.case("a full disk", wrong + first_difference("l.wav", content_of("l.wav"), kinds.whole_file("wave", "pcm_16_le", 1, RATE, found[::2])))
else:
    print("deinterleave: skipped: a disk that is full, since only the superuser makes one")
os.rmdir("full")
clear()

# ---- every kind and codec that holds one channel and more
for kind, codec in PAIRS:
    for channels in (2, 3)[:kinds.MOST.get(kind, 3) - 1]:
        found = numbers(codec, FRAMES * channels)
        wrong = splits(kind, codec, channels, found)
        it = kinds.Stated(kind, codec, channels, RATE, kinds.coded(codec, found))
        names, columns = names_for(kind, channels), split(channels, found)
        if not wrong and readers.tools["sox"] and not readers.cannot("sox", it, None):
            wrong = [f"sox -M {fault}" for fault in other_numbers(merged(names, it), kinds.kept(codec, found))]
        if not wrong:
            one = kinds.Stated(kind, codec, 1, RATE, kinds.coded(codec, columns[-1]))
            wrong = [f"{tool} {fault}" for tool, samples in readers.decoded(names[-1], one).items() for fault in other_numbers(samples, kinds.kept(codec, columns[-1]))]
        cases.case(f"{kind} {codec}, {channels} channels", wrong)
        clear()

# ---- how many frames there are: none, and those about the blocks that are read, of few channels and of as many as there may be
ABOUT = [(channels, frames) for channels in (2, 3, 5, 63, 64) for frames in (0, 1, 7, *(many * (16384 // channels) + more for many in (1, 2) for more in (-1, 0, 1)))]
for channels, frames in ABOUT:
    codec = ("pcm_24_le", "pcm_u8", "pcm_16_le")[(channels + frames) % 3]
    cases.case(f"{frames} frames of {channels} channels", splits("wave", codec, channels, numbers(codec, frames * channels) if frames else []))
    clear()
put("many.wav", kinds.whole_file("wave", "pcm_u8", 65, RATE, [0] * 65))
cases.case("65 channels", wrong_run(["deinterleave", "many.wav", *map(str, range(64))], "", "snd: many.wav: error 68 WrongCount\n", 1))
put("many.wav", kinds.whole_file("au", "pcm_s8", 256, RATE, [0] * 256))
cases.case("256 channels", wrong_run(["deinterleave", "many.wav", "x"], "", "snd: many.wav: error 68 WrongCount\n", 1))
clear()

# ---- ADPCM: each channel is decoded and coded again, in blocks of the size that this library gives one channel
random.seed(68)
CODED = [(kind, codec, channels, rate, size) for kind in ("wave", "w64") for codec in ("ima", "ms") for channels, rate, size in
         ((2, 8000, None), (2, 22050, None), (2, 44100, None), (2, 8000, 128), (2, 44100, 4096), (1, 8000, 64), (1, 22050, None))]
for kind, codec, channels, rate, size in CODED:
    size = size or blocks.align(channels, rate)
    tone = [random.randint(-9000, 9000) if at % 50 < 5 else (at * 37 * (1 + at % channels)) % 20000 - 10000 for at in range(3001 * channels)]
    data, suffix = blocks.coded(codec, channels, size, tone), kinds.SUFFIX[kind]
    put(f"in.{suffix}", blocks.file_of_blocks(kind, codec, channels, rate, size, data, 3001))
    columns = split(channels, blocks.numbers_of(codec, channels, size, data, 3001))
    names = names_for(kind, channels)
    made = {name: blocks.whole_file(kind, codec, 1, rate, column) for name, column in zip(names, columns)}
    wrong = wrong_run(["deinterleave", f"in.{suffix}", *names], "ok 3001\n", "", 0, made)
    small = blocks.align(1, rate)
    heard = [blocks.numbers_of(codec, 1, small, blocks.coded(codec, 1, small, column), 3001) for column in columns]
    if not wrong and channels == 2:
        wrong = wrong_run(["interleave", *names, "-o", "again"], "ok 3001\n", "", 0, {"again": blocks.whole_file(kind, codec, 2, rate, beside(heard))})
    if not wrong and channels == 2 and readers.tools["sox"]:
        found = merged(names, kinds.Stated(kind, "pcm_16_le", 2, rate, b""))
        # (of Wave64 it decodes the last block whole)
        wrong = [f"sox -M {fault}" for fault in other_numbers(found[:6002], beside(heard))]
    cases.case(f"{kind} {codec}, {channels} channels, {rate} frames a second, blocks of {size} bytes", wrong)
    clear()

# ---- files of other programs, and what they make of each channel
put("plain.wav", kinds.whole_file("wave", "pcm_24_le", 2, 44100, numbers("pcm_24_le", 2 * FRAMES)))


def as_others(what, source, it, command):
    """A case: each channel of a file is what another program makes of it, whose command has `CHANNEL` and `NAME`."""
    names = ["l." + source.split(".")[-1], "r." + source.split(".")[-1]]
    columns = split(2, kinds.numbers_of(it.codec, it.data))
    made = {name: kinds.whole_file(it.kind, it.codec, 1, it.rate, column) for name, column in zip(names, columns)}
    wrong = wrong_run(["deinterleave", source, *names], f"ok {it.frames}\n", "", 0, made)
    for at, name in enumerate(names):
        words = [word.replace("CHANNEL", str(at)).replace("NAME", "theirs." + source.split(".")[-1]) for word in command(at)]
        subprocess.run(words, check=True, capture_output=True)
        theirs = kinds.stated(content_of("theirs." + source.split(".")[-1]))
        wrong += [f"channel {at}: {fault}" for fault in other_numbers(kinds.numbers_of(theirs.codec, theirs.data), columns[at])]
        os.remove("theirs." + source.split(".")[-1])
    cases.case(what, wrong)
    for name in (*names, source):
        if os.path.exists(name):
            os.remove(name)


if readers.tools["sox"]:
    for name, bits in (("by-sox.au", "16"), ("by-sox.wav", "24"), ("by-sox.w64", "32")):
        many += 1
        subprocess.run(["sox", "-D", "-n", "-r", str(RATE), "-c", "2", "-b", bits, name, "synth", "1", "sine", "440", "sine", "300"], check=True, capture_output=True)
        it = kinds.stated(content_of(name))
        as_others(f"a file of sox, {name} of {bits} bits", name, it, lambda at, name=name: ["sox", "-D", name, "NAME", "remix", str(at + 1)])
if readers.tools["ffmpeg"]:
    for name, codec in (("by-ffmpeg.wav", "pcm_alaw"), ("by-ffmpeg.au", "pcm_mulaw"), ("titled.wav", "pcm_s16le")):
        many += 1
        subprocess.run(["ffmpeg", "-v", "error", "-i", "plain.wav", "-metadata", "title=Dawn", "-c:a", codec, "-y", name], check=True, capture_output=True)
        it = kinds.stated(content_of(name))
        as_others(f"a file of ffmpeg, {name} of {codec}", name, it, lambda at, name=name, codec=codec: ["ffmpeg", "-v", "error", "-i", name, "-af", "pan=mono|c0=cCHANNEL", "-c:a", codec, "-y", "NAME"])
if readers.tools["sndfile"] and shutil.which("sndfile-deinterleave"):
    many += 1
    shutil.copyfile("plain.wav", "whole.wav")
    it = kinds.stated(content_of("whole.wav"))
    as_others("plain.wav, by libsndfile", "whole.wav", it, lambda at: ["bash", "-c", "cp whole.wav t.wav && sndfile-deinterleave t.wav && mv t_0CHANNEL.wav NAME && rm -f t.wav t_0?.wav"])
os.remove("plain.wav")
cases.end(len(BY_HAND) + len(REFUSED) + len(WORDS) + 1 + len(LONG) + 2 * len(SPELLED) + 4 + 4 + 1 + sum(min(kinds.MOST.get(kind, 3) - 1, 2) for kind, _ in PAIRS) + len(ABOUT) + 2 + len(CODED) + many)
