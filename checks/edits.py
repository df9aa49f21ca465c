#!/usr/bin/env -S python3 -B
"""Files of each kind by each codec and by one channel and more, that `snd script` makes, appends to, overwrites, truncates and
trims, with automatic updates and without; and files of libsndfile's and ffmpeg's programs that it changes so. After each script
the file is compared with the bytes that a list of frames asks for, and sox, ffmpeg and libsndfile's programs read back exactly
its samples; of the laws of G.711 these are the values that the bytes keep. Needs Python 3. Of the Debian packages sox, ffmpeg and
sndfile-programs what is missing is skipped, with a line for each; a program that is there and fails is a failure."""
import random
import struct
import subprocess

from lib import kinds
from lib.head import Cases, first_difference, run, start
from lib.readers import Later, Readers, other_numbers

program = start()
cases = Cases("edits")
RATE = 8000


class Sound:
    """The frames that a file is to hold, and the lines of a script that edits both."""

    def __init__(self, kind, codec, channels, name, dice, data=b""):
        self.kind, self.codec, self.channels, self.name, self.dice = kind, codec, channels, name, dice
        # the bytes, since two of mu-law's mean 0
        self.data, self.align = bytearray(data), channels * kinds.size(codec)
        self.asked, self.replies, self.write_at, self.most = [], [], 0, 1 << (kinds.width(codec) - 1)

    def frames(self):
        return len(self.data) // self.align

    def numbers(self, first=0, last=None):
        return kinds.numbers_of(self.codec, self.data[first * self.align:None if last is None else last * self.align])

    def head(self):
        return f"ok {self.frames()} {self.channels} {RATE} {self.kind} {self.codec}"

    def line(self, line, *replies):
        self.asked.append(line)
        self.replies += replies

    def create(self):
        self.data, self.write_at = bytearray(), 0
        self.line(f"create {self.kind} {self.codec} {self.channels} {RATE} {self.name}", self.head())

    def open(self):
        self.write_at = 0
        self.line(f"open u {self.name}", self.head())

    def close(self):
        self.line("close", f"ok {self.frames()}")

    def info(self):
        self.line("info", self.head())

    def write(self, count, at=None):
        """Writes frames, the extreme values first, at the write place or at another."""
        if at is not None:
            self.write_at = at
            self.line(f"seek w {at}", f"ok {at}")
        high = self.most
        new = ([-high, high - 1, 0, -1] * self.channels + [self.dice.randint(-high, high - 1) for _ in range(count * self.channels)])[:count * self.channels]
        start = self.write_at * self.align
        self.data[start:start + count * self.align] = kinds.coded(self.codec, new)
        self.write_at += count
        self.line("write " + " ".join(map(str, new)), f"ok {count}")

    def truncate(self, to):
        del self.data[to * self.align:]
        self.write_at = min(self.write_at, to)
        self.line(f"truncate {to}", f"ok {to}")

    def count(self, line):
        """A line whose answer is the number of frames."""
        self.line(line, f"ok {self.frames()}")

    def read(self, at, count):
        self.line(f"seek r {at}", f"ok {at}")
        got = [self.numbers(i, i + 1) for i in range(at, min(at + count, self.frames()))]
        self.line(f"read {count}", f"ok {len(got)}", *(" ".join(map(str, frame)) for frame in got))

    def ran(self):
        """Runs the script so far, and gives the faults of what it says."""
        script, want = ("".join(f"{line}\n" for line in lines).encode() for lines in (self.asked, self.replies))
        self.asked, self.replies = [], []
        return run(program, ["script"], script, want, b"", 0, {f"./{self.name}"})


def read_back(what, sound, rest=None):
    """The faults of the file: what its head says, its samples, and those that the other programs decode."""
    with open(sound.name, "rb") as file:
        b = file.read()
    it = kinds.stated(b)
    found = (it.kind, it.codec, it.channels, it.rate, it.frames)
    wrong = [] if found == (sound.kind, sound.codec, sound.channels, RATE, sound.frames()) else [f"its head says {found}"]
    wrong += first_difference("its samples", it.data, bytes(sound.data))
    samples = sound.numbers()
    wrong += [f"its chunks are {it.rest}, and were {rest}"] * (rest is not None and it.rest != rest)
    for tool, numbers in readers.said(sound.name, it, but=("ffmpeg",)).items():
        wrong += [f"{tool} says {numbers}"] * (numbers != [it.channels, RATE, sound.frames()][:len(numbers)])
    for tool, numbers in readers.decoded(sound.name, it, but=("ffmpeg",)).items():
        wrong += [f"{tool} {fault}" for fault in other_numbers(numbers, samples)]
    later.ask(what, sound.name, it, RATE, samples)
    return [f"{what}: {fault}" for fault in wrong]


def as_new(what, sound, decoded=False):
    """The faults of a file that is to have the bytes of a new one with these frames, and where it is asked, of what others read."""
    with open(sound.name, "rb") as file:
        b = file.read()
    want = kinds.file_of(sound.kind, sound.codec, sound.channels, RATE, bytes(sound.data))
    wrong = [f"{what}: {it}" for it in first_difference("the file", b, want)]
    return wrong + read_back(what, sound) if decoded else wrong


def life(sound):
    """The faults of a file that is made, and changed again and again."""
    sound.create()
    sound.write(5)
    sound.write(100)
    sound.info()
    sound.close()
    wrong = sound.ran() + as_new("made", sound)
    sound.open()
    sound.write(60, sound.frames())
    sound.write(1)
    sound.close()
    wrong += sound.ran() + as_new("appended to", sound)
    sound.open()
    sound.write(20, 7)
    sound.write(30, sound.frames() - 11)
    sound.read(0, 1024)
    sound.count("update")
    sound.read(sound.frames() - 3, 9)
    sound.close()
    wrong += sound.ran() + as_new("overwritten", sound, True)
    sound.open()
    sound.count("auto on")
    sound.write(9, 3)
    sound.write(8, sound.frames())
    sound.count("update")
    sound.truncate(sound.frames() - 2)
    sound.write(4, sound.frames() - 1)
    sound.info()
    sound.count("auto off")
    sound.close()
    wrong += sound.ran() + as_new("updated automatically", sound, True)
    sound.open()
    sound.truncate(51)
    sound.read(40, 20)
    sound.count("trim")
    sound.close()
    wrong += sound.ran() + as_new("truncated", sound)
    sound.open()
    sound.truncate(0)
    sound.write(33)
    sound.close()
    wrong += sound.ran() + as_new("made anew", sound, True)
    # what stands behind the data: an append goes over it where it is unread, and trim cuts it off
    if sound.kind in ("au", "dns", "sphere"):
        with open(sound.name, "ab") as file:
            file.write(b"loose ends")
        sound.open()
        sound.write(1, 2)
        sound.count("trim")
        sound.close()
        wrong += sound.ran() + as_new("trimmed", sound)
    return wrong


def theirs(maker, kind, codec, channels, *command):
    """The faults of a file of another program that is changed."""
    name = f"{maker}-{kind}-{codec}-{channels}.{'svx' if kind == 'svx' else kinds.SUFFIX[kind]}"
    ran = subprocess.run([it.replace("NAME", name) for it in command], capture_output=True)
    if ran.returncode:
        return [f"{command[0]} failed: {ran.stderr.decode('latin-1')[-200:]}"]
    with open(name, "rb") as file:
        it = kinds.stated(file.read())
    sound = Sound(kind, codec, channels, name, random.Random(name), it.data)
    sound.open()
    sound.write(10, 90)
    sound.write(12, sound.frames())
    sound.close()
    wrong = sound.ran() + read_back("appended to", sound, it.rest)
    sound.open()
    sound.count("auto on")
    sound.write(3)
    sound.truncate(80)
    sound.write(5, 78)
    sound.close()
    return wrong + sound.ran() + read_back("updated automatically", sound, it.rest)


readers = Readers("edits")
later = Later(readers)
for kind, codecs in kinds.HOLDS.items():
    for codec in codecs:
        for channels in [it for it in (1, 2, 3) if it <= kinds.MOST.get(kind, 3)]:
            name = f"made-{kind}-{codec}-{channels}.{kinds.SUFFIX[kind]}"
            try:
                wrong = life(Sound(kind, codec, channels, name, random.Random(name)))
            except (subprocess.SubprocessError, KeyError, OSError, TypeError, ValueError, struct.error) as error:
                wrong = [f"{error!r}"]
            later.case(name, wrong)
for channels in (1, 2):
    dice = random.Random(f"source {channels}")
    with open(f"source-{channels}.wav", "wb") as file:
        file.write(kinds.whole_file("wave", "pcm_32_le", channels, RATE, [dice.randint(-2**31, 2**31 - 1) for _ in range(150 * channels)]))
SNDFILE = {"pcm_u8": "pcmu8", "pcm_s8": "pcms8"} | {codec: f"pcm{kinds.width(codec)}" for codec in (*kinds.LITTLE, *kinds.BIG)}
FFMPEG = {"pcm_u8": "pcm_u8", "pcm_s8": "pcm_s8", "ulaw": "pcm_mulaw", "alaw": "pcm_alaw"} | {it: f"pcm_s{it[4:].replace('_', '')}" for it in (*kinds.LITTLE, *kinds.BIG)}
for kind, codecs in kinds.HOLDS.items():
    for codec in codecs:
        for channels in (1, 2)[:kinds.MOST.get(kind, 2)]:
            asked = []
            # the heads that libsndfile gives the laws in SPHERE are refused
            if readers.tools["sndfile"] and kind != "wave" and (kind, codec) not in (("sphere", "ulaw"), ("sphere", "alaw")):
                order = ["-endian=little"] if kind == "dns" else ["-endian=big"] if (kind, codec) == ("sphere", "pcm_16_be") else []
                asked.append(("sndfile", "sndfile-convert", *order, f"-{SNDFILE.get(codec, codec)}", f"source-{channels}.wav", "NAME"))
            # the VOC files of ffmpeg go on behind the first block, and its Wave64 sizes count the padding
            if readers.tools["ffmpeg"] and kind in ("rf64", "au"):
                form = ["-f", "wav", "-rf64", "always"] if kind == "rf64" else []
                asked.append(("ffmpeg", "ffmpeg", "-v", "error", "-y", "-i", f"source-{channels}.wav", "-c:a", FFMPEG[codec], *form, "NAME"))
            for maker, *command in asked:
                try:
                    wrong = theirs(maker, kind, codec, channels, *command)
                except (subprocess.SubprocessError, KeyError, OSError, TypeError, ValueError, struct.error) as error:
                    wrong = [f"{error!r}"]
                later.case(f"{maker}: {kind} {codec} of {channels} channels", wrong)
later.end(cases)
cases.end(111 + 61 * readers.tools["sndfile"] + 24 * readers.tools["ffmpeg"])
