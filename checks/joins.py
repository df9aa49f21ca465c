#!/usr/bin/env -S python3 -B
"""The tools of the built program that join files, and the one that makes frames of a seed. Files of every kind and codec are joined
one behind the other and side by side with files of another kind and codec, and each file that is made is compared byte for byte
with what it is to be; where all inputs have one codec, sndfile-concat and sndfile-interleave have to make the same numbers of
them, and sox and ffmpeg have to decode these. Refused words and files change nothing. Needs Python 3. Of the Debian packages sox,
ffmpeg and sndfile-programs what is missing is skipped, with a line for each; a program that is there and fails is a failure."""
import os
import shutil
import subprocess

from lib import kinds, tool_runs
from lib.head import Cases, start
from lib.readers import Later, Readers, other_numbers
from lib.tool_runs import RATE, changed, numbers

program = start()
cases = Cases("joins")
PAIRS = [(kind, codec) for kind in kinds.HOLDS for codec in kinds.HOLDS[kind]]
# kinds that the peers write as this library does
PEERS = ("wave", "au")
FRAMES = 700


def wrong_run(*run):
    return tool_runs.wrong_run(program, *run)


def refused(words, err, status=1):
    cases.case(" ".join(words), wrong_run(words, b"", err.encode(), status))


def put(name, kind, codec, channels, found):
    with open(name, "wb") as file:
        file.write(kinds.whole_file(kind, codec, channels, RATE, found))


def decoded(name, kind, codec, channels, found):
    """The faults of what other programs decode of a file that is to hold these numbers, but for ffmpeg, which is asked later."""
    it = kinds.Stated(kind, codec, channels, RATE, kinds.coded(codec, found))
    later.ask(name, name, it, RATE, found)
    return [f"{tool} of {name}: {fault}" for tool, samples in readers.decoded(name, it, but=("ffmpeg",)).items() for fault in other_numbers(samples, found)]


def by_peer(words, kind, codec, channels, found):
    """The faults of the file that a program of libsndfile makes of the same inputs."""
    if not readers.tools["sndfile"] or kind not in PEERS or not shutil.which(words[0]):
        return []
    subprocess.run(words, check=True, capture_output=True)
    return decoded(words[-1], kind, codec, channels, found)


def behind(one, other):
    """Joins a file of one kind and codec with one of another, and with a third of its own."""
    channels = min(2, kinds.MOST.get(one[0], 2), kinds.MOST.get(other[0], 2))
    names = [f"{at}.{kinds.SUFFIX[kind]}" for at, kind in (("a", one[0]), ("b", other[0]), ("c", one[0]))]
    held = [numbers(one[1], FRAMES * channels), numbers(other[1], (FRAMES - 7) * channels), numbers(one[1], 20 * channels)]
    for name, pair, found in zip(names, (one, other, one), held):
        put(name, *pair, channels, found)
    wanted = held[0] + changed(other[1], one[1], held[1]) + held[2]
    wrong = wrong_run(["concat", *names, "whole"], f"ok {2 * FRAMES + 13}\n".encode(), b"", 0, ("whole", kinds.whole_file(*one, channels, RATE, wanted)))
    if not wrong and one[0] in PEERS:
        target = f"ours.{kinds.SUFFIX[one[0]]}"
        os.rename("whole", target)
        wrong = decoded(target, *one, channels, kinds.kept(one[1], wanted))
        wrong += by_peer(["sndfile-concat", names[0], names[2], f"peer.{kinds.SUFFIX[one[0]]}"], *one, channels, held[0] + held[2])
    later.case(f"{one[0]} {one[1]} before {other[0]} {other[1]}", wrong)
    for name in os.listdir("."):
        os.remove(name)


def beside(one, other):
    """Puts files of one channel side by side: of one kind and codec, of another, and as many as the kind holds."""
    many = min(3, kinds.MOST.get(one[0], 3))
    names = [f"{at}.{kinds.SUFFIX[kind]}" for at, kind in (("a", one[0]), ("b", other[0]), ("c", one[0]))][:many]
    held = [numbers(one[1], FRAMES - 3), numbers(other[1], FRAMES), numbers(one[1], 5)][:many]
    for name, pair, found in zip(names, (one, other, one), held):
        put(name, *pair, 1, found)
    if many == 1:
        put("b.au", "au", "pcm_s8", 1, [1])
        cases.case(f"{one[0]} holds one channel", wrong_run(["interleave", names[0], "b.au", "-o", "whole"], b"", b"snd: whole: error 18 BadPair\n", 1))
    else:
        columns = [held[0], changed(other[1], one[1], held[1]), *held[2:]]
        columns = [column + [0] * (FRAMES - len(column)) for column in columns]
        wanted = [number for frame in zip(*columns) for number in frame]
        wrong = wrong_run(["interleave", *names, "-o", "whole"], f"ok {FRAMES}\n".encode(), b"", 0, ("whole", kinds.whole_file(*one, many, RATE, wanted)))
        if not wrong and one[0] in PEERS:
            target = f"ours.{kinds.SUFFIX[one[0]]}"
            os.rename("whole", target)
            wrong = decoded(target, *one, many, kinds.kept(one[1], wanted))
            wrong += by_peer(["sndfile-interleave", names[0], names[0], "-o", f"peer.{kinds.SUFFIX[one[0]]}"], *one, 2, [x for x in held[0] for _ in range(2)])
        later.case(f"{one[0]} {one[1]} beside {other[0]} {other[1]}", wrong)
    for name in os.listdir("."):
        os.remove(name)


def generated(seed, frames):
    """What `gen` prints, and the file that it makes."""
    s, found = seed, []
    for _ in range(2 * frames):
        s = (1664525 * s + 1013904223) % 2 ** 32
        found.append(s // 65536 - 32768)
    for i in range(4):
        at = i * frames // 4
        found[2 * at:2 * at + 2] = [i, -i]
    found = found[:2 * (frames - frames // 8)]
    text = f"frames {len(found) // 2}\npeak {max(map(abs, found))}\nenergy {sum(x * x for x in found)}\n"
    cases.case(f"gen {seed} {frames}", wrong_run(["gen", str(seed), str(frames), "made.wav"], text.encode(), b"", 0,
               ("made.wav", kinds.whole_file("wave", "pcm_16_le", 2, 44100, found))))


readers = Readers("joins")
later = Later(readers)
# as many inputs as there may be, of lengths that go over a block, and none
names, held = [f"{i}.wav" for i in range(64)], [numbers("pcm_24_le", 6 + 37 * i) if i else [] for i in range(64)]
for name, found in zip(names, held):
    put(name, "wave", "pcm_24_le", 1, found)
longest = max(map(len, held))
wanted = [number for frame in zip(*[found + [0] * (longest - len(found)) for found in held]) for number in frame]
cases.case("64 files side by side", wrong_run(["interleave", *names, "-o", "whole"], f"ok {longest}\n".encode(), b"", 0, ("whole", kinds.whole_file("wave", "pcm_24_le", 64, RATE, wanted))))
wanted = [number for found in held for number in found]
cases.case("64 files in a row", wrong_run(["concat", *names, "whole"], f"ok {len(wanted)}\n".encode(), b"", 0, ("whole", kinds.whole_file("wave", "pcm_24_le", 1, RATE, wanted))))
for name in os.listdir("."):
    os.remove(name)
for at, one in enumerate(PAIRS):
    # each codec meets others of every width
    for step in (5, 12):
        behind(one, PAIRS[(at + step) % len(PAIRS)])
        beside(one, PAIRS[(at + step) % len(PAIRS)])
later.end(cases)
GENERATED = ((0, 1), (0, 2), (0, 5), (7, 1000), (6, 3), (1, 7), (4294967295, 8), (4294967295, 8193), (7, 1000000))
for seed, frames in GENERATED:
    generated(seed, frames)
os.remove("made.wav")

# ---- what is refused changes nothing
mono, stereo = numbers("pcm_16_le", 5), numbers("pcm_16_le", 10)
put("a.wav", "wave", "pcm_16_le", 1, mono)
put("s.wav", "wave", "pcm_16_le", 2, stereo)
put("v.voc", "voc", "pcm_16_le", 1, mono)
with open("fast.wav", "wb") as file:
    file.write(kinds.whole_file("wave", "pcm_16_le", 1, 44100, mono))
with open("text.wav", "wb") as file:
    file.write(b"no sound\n")
WORDS = [["concat", "a.wav", "x.wav"], ["concat", "-x", "a.wav", "x.wav"], ["concat", *["a.wav"] * 65, "x.wav"], ["interleave", "a.wav", "s.wav", "x.wav"],
         ["interleave", "-o", "x.wav", "a.wav", "s.wav"], ["interleave", "a.wav", "-o", "x.wav"], ["gen", "0", "0", "x.wav"], ["gen", "0", "10000001", "x.wav"],
         ["gen", "4294967296", "1", "x.wav"], ["gen", "1", "1"]]
for words in WORDS:
    refused(words, "snd: bad words\n", 2)
FILES = [
    (["concat", "a.wav", "a.wav", "x.wav"], "a.wav: error 50 SameName"), (["concat", "a.wav", "no.wav", "a.wav"], "a.wav: error 50 SameName"),
    (["concat", "s.wav", "a.wav", "no.wav", "x.wav"], "no.wav: error 56 MissingFile"), (["concat", "a.wav", "s.wav", "fast.wav", "x.wav"], "s.wav: error 51 MixedParams"),
    (["concat", "a.wav", "fast.wav", "x.wav"], "fast.wav: error 51 MixedParams"), (["concat", "a.wav", "text.wav", "x.wav"], "text.wav: error 1 NotSound"),
    (["interleave", "a.wav", "a.wav", "-o", "x.wav"], "a.wav: error 50 SameName"), (["interleave", "a.wav", "s.wav", "-o", "s.wav"], "s.wav: error 50 SameName"),
    (["interleave", "s.wav", "no.wav", "-o", "x.wav"], "no.wav: error 56 MissingFile"), (["interleave", "a.wav", "s.wav", "-o", "x.wav"], "s.wav: error 52 NotMono"),
    (["interleave", "a.wav", "fast.wav", "-o", "x.wav"], "fast.wav: error 51 MixedParams"), (["interleave", "a.wav", "fast.wav", "s.wav", "-o", "x.wav"], "fast.wav: error 51 MixedParams"),
    (["interleave", "s.wav", "fast.wav", "-o", "x.wav"], "s.wav: error 52 NotMono"),
]
for words, text in FILES:
    refused(words, f"snd: {text}\n")
put("b.wav", "wave", "pcm_16_le", 1, mono)
put("c.wav", "wave", "pcm_16_le", 1, mono)
refused(["interleave", "v.voc", "b.wav", "c.wav", "-o", "x.voc"], "snd: x.voc: error 18 BadPair\n")

# ---- another spelling of an input's name is a fault, and the input stays whole
refused(["concat", "a.wav", "b.wav", "./a.wav"], "", 3)
refused(["interleave", "a.wav", "b.wav", "-o", "./b.wav"], "", 3)
cases.end(2 + 4 * len(PAIRS) + len(GENERATED) + len(WORDS) + len(FILES) + 1 + 2)
