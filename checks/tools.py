#!/usr/bin/env -S python3 -B
"""The tools of the built program. Files of every kind and codec are converted into every kind and codec that holds them, and each
file that is made is compared byte for byte with what it is to be, and sample by sample with what sox, ffmpeg and libsndfile's
programs decode of it. Files of these programs are converted too. Refused words and files change
nothing, and neither does a disk that is full or another spelling of the input's name. Needs Python 3. Of the Debian packages sox,
ffmpeg and sndfile-programs what is missing is skipped, with a line for each; a program that is there and fails is a failure."""
import os
import subprocess

from lib import kinds, tool_runs
from lib.head import SECONDS, Cases, start, sums
from lib.readers import Later, Readers, other_numbers
from lib.tool_runs import RATE, changed, numbers

program = start()
cases = Cases("tools")
OPTION = {"pcm_u8": "-pcmu8", "pcm_s8": "-pcms8", "ulaw": "-ulaw", "alaw": "-alaw"}
OPTION |= {codec: f"-pcm{kinds.width(codec)}" for codec in (*kinds.LITTLE, *kinds.BIG)}
PAIRS = [(kind, codec) for kind in kinds.HOLDS for codec in kinds.HOLDS[kind]]
FRAMES = 700


def wrong_run(*run):
    return tool_runs.wrong_run(program, *run)


def options_for(kind, codec):
    """The options that make this codec in a file of this kind, by its suffix."""
    order = ["-endian=little"] if kind == "dns" else ["-endian=big"] if (kind, codec) == ("sphere", "pcm_16_be") else []
    return [*order, OPTION[codec]]


def channels_for(*many):
    return min(2, *(kinds.MOST.get(kind, 2) for kind in many))


def as_decoded(name, kind, codec, channels, found):
    """The faults of what other programs decode of a file that is to hold these numbers, but for ffmpeg, which is asked later."""
    it = kinds.Stated(kind, codec, channels, RATE, kinds.coded(codec, found))
    later.ask("as made", name, it, RATE, found)
    return [f"{tool} {fault}" for tool, samples in readers.decoded(name, it, but=("ffmpeg",)).items() for fault in other_numbers(samples, found)]


def converted(one, other):
    """Converts a file of one kind and codec into another."""
    channels = channels_for(one[0], other[0])
    held = numbers(one[1], FRAMES * channels)
    wanted = changed(one[1], other[1], held)
    source, target = f"in-{one[0]}.{kinds.SUFFIX[one[0]]}", f"out-{other[0]}.{kinds.SUFFIX[other[0]]}"
    with open(source, "wb") as file:
        file.write(kinds.whole_file(*one, channels, RATE, held))
    words = ["convert", *options_for(*other), source, target]
    wrong = wrong_run(words, f"ok {FRAMES}\n".encode(), b"", 0, (target, kinds.whole_file(*other, channels, RATE, wanted)))
    if not wrong and one[0] in ("wave", "au"):
        wrong = as_decoded(target, *other, channels, kinds.kept(other[1], wanted))
    later.case(f"{one[0]} {one[1]} to {other[0]} {other[1]}", wrong)
    os.remove(source)
    if os.path.exists(target):
        os.remove(target)


def refused(words, err, status=1):
    cases.case(" ".join(words), wrong_run(words, b"", err.encode(), status))


readers = Readers("tools")
later = Later(readers)
for one in PAIRS:
    for other in PAIRS:
        converted(one, other)
later.end(cases)

# ---- a law copied into the same law: each byte stays, but for the second zero of the mu-law, which is written as the first
for codec in ("ulaw", "alaw"):
    head = kinds.whole_file("au", codec, 1, RATE, [0] * 256)[:-256]
    every = bytes(range(256))
    with open("every.au", "wb") as file:
        file.write(head + every)
    kept = every.replace(b"\x7f", b"\xff") if codec == "ulaw" else every
    cases.case(f"every byte of {codec}", wrong_run(["convert", "every.au", "again.au"], b"ok 256\n", b"", 0, ("again.au", head + kept)))
    os.remove("every.au")
    os.remove("again.au")

# ---- files of other programs
held = numbers("pcm_24_le", FRAMES * 2)
with open("plain.wav", "wb") as file:
    file.write(kinds.whole_file("wave", "pcm_24_le", 2, 44100, held))
many = 0
if readers.tools["sndfile"]:
    subprocess.run(["sndfile-metadata-set", "--str-title", "Dawn", "--str-artist", "A B", "--bext-description", "wood", "plain.wav", "titled.wav"], check=True, capture_output=True)
    many += 2
    with open("titled.wav", "rb") as file:
        b = file.read()
    own = (b"fmt ", b"fact", b"data", *kinds.FILLERS)
    pieces = b"".join(kinds.chunk(id, b[at:at + many]) for id, at, many in kinds.riff_chunks(b, "<") if id not in own)
    cases.case("its chunks go with the frames", ["it has none"] * (not pieces) + wrong_run(["convert", "titled.wav", "titled.rf64"], f"ok {FRAMES}\n".encode(), b"", 0,
               ("titled.rf64", kinds.riff("rf64", "pcm_24_le", 2, 44100, kinds.coded("pcm_24_le", held), pieces))))
    cases.case("a file of libsndfile with chunks", wrong_run(["convert", "-pcm16", "titled.wav", "titled.w64"], f"ok {FRAMES}\n".encode(), b"", 0,
               ("titled.w64", kinds.whole_file("w64", "pcm_16_le", 2, 44100, changed("pcm_24_le", "pcm_16_le", held)))))
if readers.tools["sox"]:
    many += 1
    subprocess.run(["sox", "plain.wav", "-b", "16", "by-sox.au"], check=True, capture_output=True)
    with open("by-sox.au", "rb") as file:
        it = kinds.stated(file.read())
    found = kinds.numbers_of(it.codec, it.data)
    cases.case("a file of sox", wrong_run(["convert", "by-sox.au", "by-sox.w64"], f"ok {it.frames}\n".encode(), b"", 0,
               ("by-sox.w64", kinds.whole_file("w64", "pcm_16_le", 2, 44100, found))))
if readers.tools["ffmpeg"]:
    many += 1
    subprocess.run(["ffmpeg", "-v", "error", "-i", "plain.wav", "-c:a", "pcm_alaw", "by-ffmpeg.wav"], check=True, capture_output=True)
    with open("by-ffmpeg.wav", "rb") as file:
        it = kinds.stated(file.read())
    found = kinds.numbers_of(it.codec, it.data)
    cases.case("a file of ffmpeg", wrong_run(["convert", "-pcm32", "by-ffmpeg.wav", "by-ffmpeg.au"], f"ok {it.frames}\n".encode(), b"", 0,
               ("by-ffmpeg.au", kinds.whole_file("au", "pcm_32_be", 2, 44100, changed("alaw", "pcm_32_be", found)))))

# ---- what is refused changes nothing
for words in (["convert", "plain.wav"], ["convert", "plain.wav", "x.au", "-pcm16"], ["convert", "-pcm16", "-pcm24", "plain.wav", "x.au"],
              ["convert", "-endian=big", "-endian=little", "plain.wav", "x.au"], ["convert", "-pcm16", "plain.wav", "-x.au"]):
    refused(words, "snd: bad words\n", 2)
refused(["convert", "plain.wav", "plain.wav"], "snd: plain.wav: error 50 SameName\n")
refused(["convert", "plain.wav", "x.mp3"], "snd: x.mp3: error 54 UnknownSuffix\n")
refused(["convert", "no.wav", "x.au"], "snd: no.wav: error 56 MissingFile\n")
refused(["convert", "-override-sample-rate=0", "plain.wav", "x.au"], "snd: x.au: error 12 BadRate\n")
refused(["convert", "plain.wav", "x.voc"], "snd: x.voc: error 18 BadPair\n")

# ---- another spelling of the input's name, a link to it, and a disk that is full: the input stays whole
refused(["convert", "plain.wav", "./plain.wav"], "", 3)
os.symlink("plain.wav", "link.wav")
refused(["convert", "plain.wav", "link.wav"], "", 3)
os.remove("link.wav")
os.mkdir("full")
if os.geteuid() == 0 and subprocess.run(["mount", "-t", "tmpfs", "-o", "size=64k", "none", "full"], capture_output=True).returncode == 0:
    many += 1
    long = numbers("pcm_16_le", 60000)
    with open("long.wav", "wb") as file:
        file.write(kinds.whole_file("wave", "pcm_16_le", 1, 8000, long))
    before = sums()
    done = subprocess.run([program, "convert", "long.wav", "full/long.au"], capture_output=True, timeout=SECONDS)
    after = sums()
    before.pop("./full/long.au", None)
    after.pop("./full/long.au", None)
    subprocess.run(["umount", "full"], check=True)
    cases.case("a full disk", ([] if (done.returncode, done.stdout, done.stderr) == (3, b"", b"") else [repr(done)]) + ([] if before == after else ["other files changed"]))
else:
    print("tools: skipped: a disk that is full, since only the superuser makes one")
cases.end(len(PAIRS) ** 2 + 2 + 5 + 5 + 2 + many)
