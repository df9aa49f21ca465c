#!/usr/bin/env -S python3 -B
"""Files of all kinds that sox, ffmpeg and libsndfile's programs make, described and read by the built program. The parameters, the
frames and the chunks are compared with what the file's own head says, and the parameters and frames with what soxi,
sndfile-info and ffprobe say; every sample of a file that is read is compared with what each of the other programs decodes.
Files of theirs that are refused are refused by the number that their head asks for. What a program is known to do otherwise
stands in a table with the reason, and is skipped with a line. Needs Python 3. Of the Debian packages sox, ffmpeg and
sndfile-programs what is missing is skipped, with a line for each; a program that is there and fails is a failure."""
import math
import random
import struct
import subprocess
import sys

from lib import kinds
from lib.head import Cases, run, start
from lib.readers import Later, Readers

program = start()
cases = Cases("peers")
# The codecs whose samples stand in blocks. Programs differ on how many frames of the last block count.
ADPCM = {"ima", "ms"}
TAGS = {7: "ulaw", 6: "alaw", 0x11: "ima", 2: "ms"}
SOX = {"pcm_u8": "unsigned-integer -b 8", "pcm_s8": "signed-integer -b 8", "ulaw": "mu-law", "alaw": "a-law", "ima": "ima-adpcm", "ms": "ms-adpcm"}
SOX |= {codec: f"signed-integer -b {kinds.width(codec)}" for codec in (*kinds.LITTLE, *kinds.BIG)}
SNDFILE = {"pcm_u8": "pcmu8", "pcm_s8": "pcms8", "ulaw": "ulaw", "alaw": "alaw", "ima": "ima-adpcm", "ms": "ms-adpcm"}
SNDFILE |= {codec: f"pcm{kinds.width(codec)}" for codec in (*kinds.LITTLE, *kinds.BIG)}
FFMPEG = {"pcm_u8": "pcm_u8", "pcm_s8": "pcm_s8", "ulaw": "pcm_mulaw", "alaw": "pcm_alaw", "ima": "adpcm_ima_wav", "ms": "adpcm_ms"}
FFMPEG |= {codec: f"pcm_s{codec[4:].replace('_', '')}" for codec in (*kinds.LITTLE, *kinds.BIG)}
WAVE = (*kinds.HOLDS["wave"], "ima", "ms")

# What each program makes beside WAVE files: kinds, and of each its codecs.
SOX_KINDS = {"w64": kinds.HOLDS["w64"], "au": kinds.HOLDS["au"], "voc": ("pcm_u8", "pcm_16_le"), "svx": ("pcm_s8",), "sphere": ("pcm_16_le", "pcm_16_be", "ulaw")}
SNDFILE_KINDS = {"rf64": kinds.HOLDS["rf64"], "w64": (*kinds.HOLDS["w64"], "ima", "ms"), "au": kinds.HOLDS["au"], "dns": kinds.HOLDS["dns"],
                 "voc": kinds.HOLDS["voc"], "svx": ("pcm_s8",), "sphere": ("pcm_16_le", "pcm_16_be")}
FFMPEG_KINDS = {"rf64": kinds.HOLDS["rf64"], "w64": kinds.HOLDS["w64"], "au": kinds.HOLDS["au"], "voc": kinds.HOLDS["voc"]}

# What is known of makers: the frames that a file holds behind those that its head says are not compared.
SHORT = {("sox", "pcm_16_le", "voc"): "its VOC blocks of 16 bits say 8 bytes less than they hold, and what a block says counts"}
SHORT |= {("ffmpeg", codec, "voc"): "its VOC files have a block for each packet, and the first counts" for codec in kinds.HOLDS["voc"]}


def source(name, channels, rate, frames):
    """A WAVE file of 32-bit samples: tones and noise, with the extreme values at the front."""
    random.seed(f"{channels} {rate}")
    numbers = [-2147483648, 2147483647, 0, -1, 1, -65536] * channels
    for i in range(frames - 6):
        for c in range(channels):
            numbers.append(round(9e8 * math.sin((c + 2) * i / 40) + random.uniform(-2e8, 2e8)))
    data = struct.pack(f"<{len(numbers)}i", *numbers)
    with open(name, "wb") as file:
        file.write(struct.pack("<4sI4s4sIHHIIHH4sI", b"RIFF", 36 + len(data), b"WAVE", b"fmt ", 16, 1, channels, rate, 4 * channels * rate, 4 * channels, 32, b"data", len(data)) + data)


def fmt_of(body):
    """The codec, the channels, the rate, the align and the frames of a block that a `fmt ` body says."""
    tag, channels, rate, _, align, bits = struct.unpack_from("<HHIIHH", body)
    tag = struct.unpack_from("<H", body, 24)[0] if tag == 0xFFFE else tag
    codec = TAGS.get(tag) or ("pcm_u8" if bits == 8 else f"pcm_{bits}_le")
    return codec, channels, rate, align, struct.unpack_from("<H", body, 18)[0] if codec in ADPCM else 1


class Blocks(kinds.Stated):
    """What the head of a file of ADPCM blocks says."""

    def __init__(self, kind, body, data, count, rest=(), texts=()):
        self.kind, self.rest, self.texts, self.data = kind, list(rest), list(texts), b""
        self.codec, self.channels, self.rate, align, each = fmt_of(body)
        self.frames = len(data) // align * each
        self.frames = self.frames if count is None else min(self.frames, count)


def stated(name):
    """What the head of a file says."""
    with open(name, "rb") as file:
        b = file.read()
    if b[:4] == b"RIFF":
        chunks = kinds.riff_chunks(b, "<")
        bodies = {id: b[at:at + many] for id, at, many in reversed(chunks)}
        if fmt_of(bodies[b"fmt "])[0] in ADPCM:
            count = struct.unpack("<I", bodies[b"fact"])[0] if b"fact" in bodies else None
            return Blocks("wave", bodies[b"fmt "], bodies[b"data"], count, [(id, many) for id, _, many in chunks if id not in (b"fmt ", b"data", b"fact")], kinds.info_texts(b, chunks))
    if b[:4] == b"riff":
        at, bodies = 40, {}
        while at + 24 <= len(b) and b"data" not in bodies:
            many = max(struct.unpack_from("<Q", b, at + 16)[0], 24)
            bodies.setdefault(b[at:at + 4], b[at + 24:at + many])
            at += many + -many % 8
        if fmt_of(bodies[b"fmt "])[0] in ADPCM:
            return Blocks("w64", bodies[b"fmt "], bodies[b"data"], struct.unpack("<Q", bodies[b"fact"])[0] if b"fact" in bodies else None)
    return kinds.stated(b)


def readings(name, it, samples):
    """The faults of what the program reads of a file, for what it is to read."""
    rows = [" ".join(map(str, samples[i:i + it.channels])) for i in range(0, len(samples), it.channels)]
    head = f"ok {it.frames} {it.channels} {it.rate} {it.kind} {it.codec}"
    asked, replies = [f"open r {name}", "info"], [head, head]
    for at in range(0, it.frames + 1, 1024):
        asked.append("read 1024")
        replies += [f"ok {len(rows[at:at + 1024])}", *rows[at:at + 1024]]
    for at in (it.frames - 1, it.frames // 2, 0, it.frames, it.frames + 1):
        asked += [f"seek r {at}", "read 3"]
        replies.append(f"ok {at}" if at <= it.frames else "error 24 SeekRange")
        replies += [f"ok {len(rows[at:at + 3])}", *rows[at:at + 3]]
    asked.append("close")
    replies.append(f"ok {it.frames}")
    return run(program, ["script"], "".join(f"{line}\n" for line in asked).encode(), "".join(f"{line}\n" for line in replies).encode(), b"", 1)


def examine(name, maker, parameters):
    """The faults of what the program says of a file, and reads of it. The parameters are its kind, codec, channels and rate."""
    it = stated(name)
    short = readers.skip(maker, SHORT.get((maker, it.codec, it.kind)))
    found = (it.kind, it.codec, it.channels, it.rate)
    wrong = [] if found == parameters else [f"{maker} made {found}"]
    for tool, numbers in readers.said(name, it, maker).items():
        many = 2 if short or it.codec in ADPCM else 3
        if numbers[:many] != [it.channels, it.rate, it.frames][:min(many, len(numbers))]:
            wrong.append(f"{tool} says {numbers}, and the file {(it.channels, it.rate, it.frames)}")
    wrong += run(program, ["info", name], b"", "".join(f"{line}\n" for line in it.lines(name)).encode(), b"", 0)
    bytes_say, read = None if it.codec in ADPCM else kinds.numbers_of(it.codec, it.data), []
    for tool, samples in readers.decoded(name, it, maker, but=("ffmpeg",)).items():
        samples = samples[:it.frames * it.channels] if short or it.codec in ADPCM else samples
        if samples not in read:
            read.append(samples)
            wrong += [f"as {tool} decodes: {fault}" for fault in readings(name, it, samples)]
        # and what the bytes themselves are
        wrong += [f"{tool} decodes other numbers than the bytes say"] * (bytes_say is not None and samples != bytes_say)
    if bytes_say is not None and later.ask("as the bytes say", name, it, it.rate, bytes_say, maker, bool(short)) and bytes_say not in read:
        wrong += [f"as the bytes say: {fault}" for fault in readings(name, it, bytes_say)]
    return wrong


def make(name, *command):
    """Has a program make a file, and gives the faults."""
    ran = subprocess.run([it.replace("NAME", name) for it in command], capture_output=True)
    return [f"{command[0]} failed: {ran.stderr.decode('latin-1')[-200:]}"] if ran.returncode else []


def made(maker, kind, codec, channels, rate, *command, name=None):
    """Has a program make a file, and examines it."""
    suffix = "svx" if (maker, kind) == ("sndfile", "svx") else kinds.SUFFIX[kind]
    name = name or f"{maker}-{kind}-{channels}-{rate}-{codec}.{suffix}"
    wrong = make(name, *command)
    try:
        later.case(name, wrong or examine(name, maker, (kind, codec, channels, rate)))
    except (subprocess.CalledProcessError, KeyError, StopIteration, struct.error, TypeError, ValueError) as error:
        later.case(name, [f"{error!r}"])


def refused(name, error, *command):
    """Has a program make a file that is refused."""
    wrong = make(name, *command)
    wrong = wrong or run(program, ["info", name], b"", b"", f"snd: {name}: error {error}\n".encode(), 1)
    cases.case(name, wrong or run(program, ["script"], f"open r {name}\nopen u {name}\n".encode(), f"error {error}\n".encode() * 2, b"", 1))


def channels_of(kind):
    return [it for it in (1, 2, 3) if it <= kinds.MOST.get(kind, 3)]


readers = Readers("peers")
later = Later(readers)
tools = readers.tools
if not any(tools.values()):
    print("peers: skipped: none of sox, ffmpeg and sndfile-programs is installed")
    sys.exit(0)
for channels in (1, 2, 3, 5):
    for rate in (8000, 44100):
        source(f"source-{channels}-{rate}.wav", channels, rate, 2500)
if tools["sox"]:
    def by_sox(codec, *more):
        return "-e", *SOX[codec].split(), *more
    for codec in WAVE:
        for channels in (1, 2) if codec in ADPCM else (1, 2, 5):
            for rate in (8000, 44100):
                made("sox", "wave", codec, channels, rate, "sox", "-D", f"source-{channels}-{rate}.wav", *by_sox(codec, "NAME"))
    for kind, codecs in SOX_KINDS.items():
        for codec in codecs:
            for channels in channels_of(kind):
                order = ["-B" if codec.endswith("be") else "-L"] if kind == "sphere" else []
                made("sox", kind, codec, channels, 8000, "sox", "-D", f"source-{channels}-8000.wav", *order, *by_sox(codec, "NAME"))
    # whose size of the data is unknown, as it reads without a length and writes into a pipe
    made("sox", "au", "pcm_16_be", 2, 8000, "bash", "-c", "sox -D --ignore-length -t wav - -b 16 -t au - <source-2-8000.wav | cat >NAME", name="sox-pipe.au")
    cases.case("sox-pipe.au is not updated", run(program, ["script"], b"open u sox-pipe.au\n", b"error 21 UnknownLength\n", b"", 1))
    refused("sox-stereo.8svx", "11 BadChannels", "sox", "-D", "source-2-8000.wav", "NAME")
    refused("sox-little.au", "1 NotSound", "sox", "-D", "source-1-8000.wav", "-L", "NAME")
    refused("sox-float.au", "10 FloatSamples", "sox", "-D", "source-1-8000.wav", *"-e floating-point -b 32 NAME".split())
    # its head says linear samples of one byte
    refused("sox-alaw.sph", "4 BadField", "sox", "-D", "source-1-8000.wav", "-e", "a-law", "NAME")
    refused("sox.aiff", "2 FloatRate", "sox", "-D", "source-1-8000.wav", "NAME")
if tools["sndfile"]:
    for codec in WAVE:
        for channels in (1, 2):
            made("sndfile", "wave", codec, channels, 44100, "sndfile-convert", f"-{SNDFILE[codec]}", f"source-{channels}-44100.wav", "NAME")
    # with a broadcast extension
    made("sndfile", "wave", "pcm_16_le", 2, 44100, "sndfile-metadata-set", "--bext-description", "a bell", "--bext-originator", "checks",
         "sndfile-wave-2-44100-pcm_16_le.wav", "NAME", name="sndfile-bext.wav")
    for kind, codecs in SNDFILE_KINDS.items():
        for codec in codecs:
            for channels in (1, 2) if codec in ADPCM else channels_of(kind):
                order = ["-endian=little"] if kind == "dns" else ["-endian=big"] if (kind, codec) == ("sphere", "pcm_16_be") else []
                # a rate that VOC holds exactly
                rate = 8000 if kind == "voc" else 44100
                made("sndfile", kind, codec, channels, rate, "sndfile-convert", *order, f"-{SNDFILE[codec]}", f"source-{channels}-{rate}.wav", "NAME")
    # a size of the form that the lines are not to have
    for codec in ("ulaw", "alaw", "pcm24", "pcm32", "pcms8"):
        refused(f"sndfile-{codec}.sph", "4 BadField", "sndfile-convert", f"-{codec}", "source-1-8000.wav", "NAME")
    for suffix in ("au", "w64", "rf64"):
        refused(f"sndfile-float.{suffix}", "10 FloatSamples", "sndfile-convert", "-float32", "source-2-8000.wav", "NAME")
    refused("sndfile-16sv.svx", "1 NotSound", "sndfile-convert", "-pcm16", "source-1-8000.wav", "NAME")
    for suffix in ("aiff", "caf"):
        refused(f"sndfile.{suffix}", "2 FloatRate", "sndfile-convert", "-pcm16", "source-1-8000.wav", "NAME")
    refused("sndfile-gsm.w64", "9 UnknownCodec", "sndfile-convert", "-gsm610", "source-1-8000.wav", "NAME")
if tools["ffmpeg"]:
    def by_ffmpeg(codec, *more):
        return "-metadata", "title=bell", "-c:a", FFMPEG[codec], *more
    for codec in WAVE:
        for channels in (1, 2):
            # with a LIST chunk, as ffmpeg writes it
            made("ffmpeg", "wave", codec, channels, 8000, "ffmpeg", "-v", "error", "-y", "-i", f"source-{channels}-8000.wav", *by_ffmpeg(codec, "NAME"))
    for kind, codecs in FFMPEG_KINDS.items():
        for codec in codecs:
            for channels in channels_of(kind):
                form = ["-f", "wav", "-rf64", "always"] if kind == "rf64" else []
                made("ffmpeg", kind, codec, channels, 8000, "ffmpeg", "-v", "error", "-y", "-i", f"source-{channels}-8000.wav", *by_ffmpeg(codec, *form, "NAME"))
    refused("ffmpeg-float.w64", "10 FloatSamples", "ffmpeg", "-v", "error", "-y", "-i", "source-2-8000.wav", "-c:a", "pcm_f32le", "NAME")
later.end(cases)
cases.end(sum(count for tool, count in {"sox": 44 + 50 + 7, "sndfile": 17 + 91 + 12, "ffmpeg": 16 + 62 + 1}.items() if tools[tool]))
