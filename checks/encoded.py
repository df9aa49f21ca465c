#!/usr/bin/env -S python3 -B
"""Files of ADPCM that the tools of the built program make. Files of each codec are converted into IMA and Microsoft ADPCM, in WAVE and
Wave64, of one channel and two and at rates on both sides of each size of a block; files of ADPCM with other blocks, some of them made
by sox, are copied, joined one behind the other and put side by side. Each file that is made is compared byte for byte with what it is
to be, and sample by sample with what sox and libsndfile's programs decode of it; what a script makes of the same frames is the same
file. Needs Python 3. Of the Debian packages sox and sndfile-programs what is missing is skipped, with a line for each; a program that
is there and fails is a failure."""
import math
import os
import subprocess

from lib import blocks, kinds, tool_runs
from lib.head import Cases, first_difference, run, start
from lib.readers import Readers
from lib.tool_runs import changed, numbers

program = start()
cases = Cases("encoded")
OPTION = {"ima": "-ima-adpcm", "ms": "-ms-adpcm"}
RATES = (11999, 12000, 22999, 23000)
SUFFIX = {"wave": "wav", "w64": "w64"}
FRAMES = 5000


def wrong_run(*run):
    return tool_runs.wrong_run(program, *run)


def put(name, content):
    with open(name, "wb") as file:
        file.write(content)


def as_decoded(name, kind, codec, channels, rate, found):
    """The faults of what other programs decode of a file that is made of these numbers."""
    size = blocks.align(channels, rate)
    it = kinds.Stated(kind, codec, channels, rate, blocks.coded(codec, channels, size, found))
    held = blocks.numbers_of(codec, channels, size, it.data, len(found) // channels)
    wrong = []
    for tool, samples in readers.decoded(name, it, "ffmpeg").items():
        # some count the frames of whole blocks
        if samples[:len(held)] != held:
            wrong.append(f"{tool} decodes other numbers")
    return wrong


def made(what, words, frames, kind, codec, channels, rate, found, decode=True):
    wrong = wrong_run(words, f"ok {frames}\n".encode(), b"", 0, (words[-1], blocks.whole_file(kind, codec, channels, rate, found)))
    cases.case(what, wrong or (as_decoded(words[-1], kind, codec, channels, rate, found) if decode else []))


def tone(codec, count):
    """Numbers of a codec as a recording has them."""
    shift = kinds.width(codec) - 16
    found = [int(9000 * math.sin(i / 20) + 2500 * math.sin(i / 3.1)) + 40 * (i * 7919 % 13 - 6) for i in range(count)]
    return kinds.kept(codec, [x << shift if shift >= 0 else x >> -shift for x in found])


def converted(one, codec, kind, channels, rate):
    """Converts WAVE files of some codec; a script makes the same of the same frames."""
    out = f"out.{SUFFIX[kind]}"
    for what, held in (("a tone", tone(one, FRAMES * channels)), ("any numbers", numbers(one, FRAMES * channels))):
        wanted = changed(one, codec, held)
        put("in.wav", kinds.whole_file("wave", one, channels, rate, held))
        # of any numbers the step of Microsoft's decoder leaves 16 bits, in which libsndfile keeps it
        made(f"{what}, {one} to {kind} {codec} {channels} {rate}", ["convert", OPTION[codec], "in.wav", out], FRAMES, kind, codec, channels, rate, wanted, codec == "ima" or what == "a tone")
        if one == "pcm_16_le" and rate == RATES[0]:
            lines = [f"create {kind} {codec} {channels} {rate} by-script.{SUFFIX[kind]}"]
            lines += ["write " + " ".join(map(str, wanted[i:i + 200])) for i in range(0, len(wanted), 200)]
            replies = [f"ok 0 {channels} {rate} {kind} {codec}", *(f"ok {len(wanted[i:i + 200]) // channels}" for i in range(0, len(wanted), 200)), f"ok {FRAMES}"]
            by_script = f"by-script.{SUFFIX[kind]}"
            script, replies = ("".join(f"{line}\n" for line in found).encode() for found in ([*lines, "close"], replies))
            wrong = run(program, ["script"], script, replies, b"", 0, {f"./{by_script}"})
            with open(by_script, "rb") as one_file, open(out, "rb") as other:
                cases.case(f"a script makes the same: {what}, {kind} {codec} {channels}", wrong + first_difference("the file", one_file.read(), other.read()))
        os.remove(out)


def small(codec, channels, rate, found, size):
    """A WAVE file with blocks of another size than is made here."""
    data = blocks.coded(codec, channels, size, found)
    rest = b"WAVE" + kinds.chunk(b"fmt ", blocks.format_body(codec, channels, rate, size)) + kinds.chunk(b"fact", (len(found) // channels).to_bytes(4, "little")) + kinds.chunk(b"data", data)
    return b"RIFF" + len(rest).to_bytes(4, "little") + rest, blocks.numbers_of(codec, channels, size, data, len(found) // channels)


readers = Readers("encoded")
for codec in OPTION:
    for kind in SUFFIX:
        for channels in (1, 2):
            for rate in RATES:
                converted("pcm_16_le", codec, kind, channels, rate)
    for one in ("pcm_u8", "pcm_24_le", "pcm_32_le", "ulaw", "alaw"):
        converted(one, codec, "wave", 2, 8000)

# ---- blocks of another size are coded anew
for codec in OPTION:
    for channels in (1, 2):
        whole, held = small(codec, channels, 8000, tone("pcm_16_le", 1234 * channels), 64 * channels)
        put("small.wav", whole)
        made(f"{codec} {channels}, copied", ["convert", "small.wav", "copy.w64"], 1234, "w64", codec, channels, 8000, held)
        other = tone("pcm_24_le", 77 * channels)
        put("other.w64", kinds.whole_file("w64", "pcm_24_le", channels, 8000, other))
        made(f"{codec} {channels}, and another behind it", ["concat", "small.wav", "other.w64", "joined.wav"], 1311, "wave", codec, channels, 8000, held + changed("pcm_24_le", codec, other))
        put("first.wav", kinds.whole_file("wave", "pcm_16_le", channels, 8000, held))
        cases.case(f"{codec} {channels}, behind another", wrong_run(["concat", "first.wav", "small.wav", "twice.wav"], b"ok 2468\n", b"", 0,
                   ("twice.wav", kinds.whole_file("wave", "pcm_16_le", channels, 8000, held + held))))
    whole, left = small(codec, 1, 8000, tone("pcm_16_le", 600), 64)
    put("left.wav", whole)
    right = tone("ulaw", 900)
    put("right.au", kinds.whole_file("au", "ulaw", 1, 8000, right))
    left += [0] * 300
    made(f"{codec}, side by side", ["interleave", "left.wav", "right.au", "-o", "both.wav"], 900, "wave", codec, 2, 8000, [x for frame in zip(left, right) for x in frame])
    cases.case(f"{codec}, beside one of two channels", wrong_run(["interleave", "left.wav", "right.au", "first.wav", "-o", "three.wav"], b"", b"snd: first.wav: error 52 NotMono\n", 1))
    put("mono.wav", kinds.whole_file("wave", "pcm_16_le", 1, 8000, [5]))
    cases.case(f"{codec}, three channels of one each", wrong_run(["interleave", "left.wav", "right.au", "mono.wav", "-o", "three.wav"], b"", b"snd: three.wav: error 18 BadPair\n", 1))
    for suffix in ("rf64", "au", "voc", "sph", "8svx"):
        cases.case(f"{codec} in {suffix}", wrong_run(["convert", OPTION[codec], "mono.wav", f"x.{suffix}"], b"", f"snd: x.{suffix}: error 18 BadPair\n".encode(), 1))

# ---- files of sox
if readers.tools["sox"]:
    held = tone("pcm_16_le", 4000)
    put("plain.wav", kinds.whole_file("wave", "pcm_16_le", 2, 44100, held))
    for codec in OPTION:
        subprocess.run(["sox", "plain.wav", "-e", {"ima": "ima-adpcm", "ms": "ms-adpcm"}[codec], f"sox-{codec}.wav"], check=True, capture_output=True)
        with open(f"sox-{codec}.wav", "rb") as file:
            b = file.read()
        bodies = {id: (at, many) for id, at, many in kinds.riff_chunks(b, "<")}
        size = int.from_bytes(b[bodies[b"fmt "][0] + 12:][:2], "little")
        at, many = bodies[b"data"]
        found = blocks.numbers_of(codec, 2, size, b[at:at + many], 2000)
        made(f"{codec} of sox, copied", ["convert", f"sox-{codec}.wav", f"copy-{codec}.wav"], 2000, "wave", codec, 2, 44100, found)
cases.end(2 * 2 * (2 * 2 * len(RATES) + 5) + 2 * 2 * 2 * 2 + 2 * (2 * 3 + 3 + 5) + (2 if readers.tools["sox"] else 0))
