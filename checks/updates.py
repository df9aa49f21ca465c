#!/usr/bin/env -S python3 -B
"""WAVE files that the library makes, and files of sox, ffmpeg and libsndfile's programs that it changes: frames written over
theirs and past their end, with automatic updates and without. Each of the other programs reads them back, and every sample
and every further chunk is compared with what they are to be. Needs Python 3 and the program write_bench, which tools/build
builds where the gate has not. Of the Debian packages sox, ffmpeg and sndfile-programs what is missing is skipped, with a line
for each; a program that is there and fails is a failure."""
import random
import shutil
import struct
import subprocess

from lib.head import Cases, first_difference, start

program = start("write_bench")
cases = Cases("updates")
BLOCK = 16384


def has(*names):
    missing = [name for name in names if not shutil.which(name)]
    if missing:
        print(f"updates: skipped: what {' and '.join(names)} make and read, since {missing[0]} is not installed")
    return not missing


def out_of(*words):
    return subprocess.run(words, check=True, capture_output=True).stdout


def coded(bits, numbers):
    """Linear samples as WAVE has them: 8 bits with an offset, others in two's complement, the lowest byte first."""
    if bits == 8:
        return bytes(x + 128 for x in numbers)
    return b"".join((x % (1 << bits)).to_bytes(bits // 8, "little") for x in numbers)


def written(bits, channels, frames):
    """The data bytes of the frames that the program writes: block by block the numbers of a linear congruential generator,
    shortened to the width, but that the first of a block is the block's number."""
    whole = max(BLOCK // (bits // 8) // channels * channels, 1)
    state, block = 1, []
    for _ in range(whole):
        state = (1664525 * state + 1013904223) % (1 << 32)
        signed = state - (1 << 32) if state >> 31 else state
        block.append(signed >> (32 - bits))
    numbers = channels * frames
    data = b"".join(coded(bits, [i % 128] + block[1:]) for i in range(numbers // whole))
    if numbers // whole:
        block[0] = (numbers // whole - 1) % 128
    return data + coded(bits, block[:numbers % whole])


def chunks_of(name):
    with open(name, "rb") as file:
        b = file.read()
    at, chunks = 12, []
    while at + 8 <= len(b):
        size = struct.unpack_from("<I", b, at + 4)[0]
        chunks.append((b[at:at + 4], b[at + 8:at + 8 + size]))
        at += 8 + size + size % 2
    return chunks, struct.unpack_from("<I", b, 4)[0] + 8, len(b)


def wrong_file(name, bits, channels, data, kept):
    """What is wrong with a file that is to hold these data, and to keep these further chunks."""
    wrong = []
    chunks, whole, size = chunks_of(name)
    if whole != size:
        wrong.append(f"the size of the whole is {whole}, and the file has {size} bytes")
    held = [body for id, body in chunks if id == b"data"]
    wrong += first_difference("the data", held[0] if held else b"", data)
    others = [(id, body) for id, body in chunks if id not in (b"data", b"fact", b"JUNK", b"FLLR", b"PAD ")]
    if kept is not None and others != kept:
        wrong.append(f"the further chunks are {[id for id, _ in others]}, and were {[id for id, _ in kept]}, or have other bodies")
    frames = len(data) // (channels * bits // 8)
    for reader, read in READERS.items():
        try:
            wrong += first_difference(f"what {reader} reads", read(name, bits), data)
            said = COUNTS[reader](name) if reader in COUNTS else frames
        except subprocess.CalledProcessError as error:
            wrong.append(f"{reader} does not read it: {error}")
            continue
        if said != frames:
            wrong.append(f"{reader} counts {said} frames for {frames}")
    return wrong


def by_sox(name, bits):
    kind = "-e unsigned-integer" if bits == 8 else "-e signed-integer"
    return out_of("sox", "-D", name, "-t", "raw", *kind.split(), "-b", str(bits), "-L", "-")


def by_ffmpeg(name, bits):
    form = "u8" if bits == 8 else f"s{bits}le"
    return out_of("ffmpeg", "-v", "error", "-i", name, "-f", form, "-c:a", f"pcm_{form}", "-")


def by_sndfile(name, bits):
    out_of("sndfile-convert", f"-pcm{'u8' if bits == 8 else bits}", name, "read.wav")
    return dict(chunks_of("read.wav")[0])[b"data"]


def sox_count(name):
    return int(out_of("soxi", "-s", name))


def sndfile_count(name):
    lines = out_of("sndfile-info", name).decode().splitlines()
    return int(next(line.split(":")[1] for line in lines if line.startswith("Frames")))


READERS, COUNTS, MAKERS = {}, {}, {}
if has("sox"):
    READERS["sox"], COUNTS["sox"] = by_sox, sox_count
    MAKERS["sox"] = lambda raw, bits, channels, name: out_of(
        "sox", "-D", "-t", "raw", "-e", "unsigned-integer" if bits == 8 else "signed-integer", "-b", str(bits), "-L", "-r", "44100", "-c", str(channels), raw,
        "--comment", "kept", name)
if has("ffmpeg"):
    READERS["ffmpeg"] = by_ffmpeg
    MAKERS["ffmpeg"] = lambda raw, bits, channels, name: out_of(
        "ffmpeg", "-v", "error", "-f", "u8" if bits == 8 else f"s{bits}le", "-ar", "44100", "-ac", str(channels), "-i", raw,
        "-metadata", "title=kept", "-c:a", "pcm_u8" if bits == 8 else f"pcm_s{bits}le", "-y", name)
if has("sndfile-convert"):
    READERS["libsndfile"], COUNTS["libsndfile"] = by_sndfile, sndfile_count

    def by_convert(raw, bits, channels, name):
        with open(raw, "rb") as file:
            data = file.read()
        with open("plain.wav", "wb") as file:
            file.write(struct.pack("<4sI4s4sIHHIIHH4sI", b"RIFF", 36 + len(data) + len(data) % 2, b"WAVE", b"fmt ", 16, 1, channels, 44100,
                                   44100 * channels * bits // 8, channels * bits // 8, bits, b"data", len(data)) + data + b"\0" * (len(data) % 2))
        out_of("sndfile-convert", f"-pcm{'u8' if bits == 8 else bits}", "plain.wav", name)
    MAKERS["libsndfile"] = by_convert

SHAPES = [(8, 1, 777), (16, 1, 1000), (16, 2, 9001), (24, 2, 3000), (24, 1, 1001), (32, 6, 500)]
for bits, channels, frames in SHAPES:
    said = out_of(program, "create", "made.wav", str(bits), str(channels), str(frames)).decode()
    wrong = wrong_file("made.wav", bits, channels, written(bits, channels, frames), None)
    if said != f"closed {frames}\n":
        wrong.append(f"it said {said!r}")
    cases.case(f"made: {frames} frames of {channels} times {bits} bits", wrong)

random.seed("updates")
for maker, make in MAKERS.items():
    for bits, channels, frames in SHAPES:
        align = channels * bits // 8
        raw = random.randbytes(align * frames)
        with open("raw", "wb") as file:
            file.write(raw)
        # over old frames in the midst, over the end, and from the end on
        for automatic, start, count in (("on", 100, 50), ("off", frames - 30, 90), ("on", frames, 200)):
            make("raw", bits, channels, "theirs.wav")
            kept = [(id, body) for id, body in chunks_of("theirs.wav")[0] if id not in (b"data", b"fact", b"JUNK", b"FLLR", b"PAD ")]
            behind = [id for id, _ in chunks_of("theirs.wav")[0]]
            trailing = behind.index(b"data") + 1 < len(behind)
            ran = subprocess.run([program, "update", "theirs.wav", automatic, str(start), str(count)], capture_output=True)
            name = f"{maker}: {count} frames of {channels} times {bits} bits from {start} of {frames} on, automatic {automatic}"
            if trailing and start + count > frames:
                # chunks stand behind their data, so these cannot grow: nothing is changed
                wrong = [] if ran.returncode == 1 else [f"the status is {ran.returncode} where the file goes on behind its data"]
                data = raw
            else:
                wrong = [] if ran.returncode == 0 else [f"the status is {ran.returncode}: {ran.stderr!r}"]
                new = written(bits, channels, count)
                data = raw[:align * start] + new + raw[align * start + len(new):]
            cases.case(name, wrong + wrong_file("theirs.wav", bits, channels, data, kept))
cases.end(len(SHAPES) * (1 + 3 * len(MAKERS)))
