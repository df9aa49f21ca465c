#!/usr/bin/env -S python3 -B
"""Runs of the built program whose whole streams, status and files afterwards are known: descriptions and scripts over WAVE
files that are made here or lie in examples/. What is wanted is read from the files by Python's own module for WAVE files,
or follows from the bytes that are written here. Needs Python 3."""
import os
import shutil
import struct
import wave

from lib.head import TOP, Cases, run, start

program = start()
os.mkdir("sub")
for name, to in (("bell.wav", "bell.wav"), ("chord.wav", "chord.wav"), ("bell.wav", "sub/inner.wav")):
    shutil.copyfile(f"{TOP}/examples/{name}", to)
cases = Cases("whole_streams")


def chunk(name, body):
    return name + struct.pack("<I", len(body)) + body + b"\0" * (len(body) % 2)


def form(*chunks):
    body = b"WAVE" + b"".join(chunks)
    return b"RIFF" + struct.pack("<I", len(body)) + body


def format_of(tag, channels, rate, bits, align=None):
    align = channels * bits // 8 if align is None else align
    return chunk(b"fmt ", struct.pack("<HHIIHH", tag, channels, rate, min(rate * align, 0xFFFFFFFF), align, bits))


def put(name, data):
    with open(name, "wb") as file:
        file.write(data)


def info(name, codec, channels, rate, frames, *chunks):
    """What is said of a file."""
    ms = frames * 1000 // rate
    duration = f"{ms // 3600000:02}:{ms // 60000 % 60:02}:{ms // 1000 % 60:02}.{ms % 1000:03}"
    lines = [f"name {name}", "kind wave", f"codec {codec}", f"channels {channels}", f"rate {rate}", f"frames {frames}", f"duration {duration}"]
    return "".join(f"{line}\n" for line in [*lines, *(f"chunk {it}" for it in chunks)]).encode()


def frames_of(name):
    """The frames of a file of 16-bit samples, as texts."""
    with wave.open(name) as file:
        assert file.getsampwidth() == 2
        channels, count = file.getnchannels(), file.getnframes()
        numbers = struct.unpack(f"<{channels * count}h", file.readframes(count))
    return [" ".join(map(str, numbers[i:i + channels])) for i in range(0, len(numbers), channels)]


def described(name, *rest):
    cases.case(f"info {name}", run(program, ["info", name], b"", info(name, *rest), b"", 0))


def refused(name, error):
    cases.case(f"info {name} is {error}", run(program, ["info", name], b"", b"", f"snd: {name}: error {error}\n".encode(), 1))


def scripted(name, lines, replies, status):
    out = "".join(f"{line}\n" for line in replies).encode()
    cases.case(name, run(program, ["script"], lines, out, b"", status))


pcm = format_of(1, 1, 8000, 16)
two = chunk(b"data", struct.pack("<hh", 1, -1))
put("chunks.wav", form(pcm, chunk(b"abcd", b"12345"), chunk(b"JUNK", bytes(20)), chunk(b"cue ", bytes(4)), two, chunk(b"e?\x01g", b"123456")))
put("odd.wav", form(format_of(1, 1, 8000, 8), chunk(b"data", b"\x80\x81\x7f"), chunk(b"last", b"")))
put("hours.wav", form(format_of(1, 1, 1, 8), chunk(b"data", bytes(370001))))
put("wide.wav", form(format_of(1, 3, 48000, 24), chunk(b"data", bytes.fromhex("000080 ffffff ffff7f 010000 000000 feffff 1234"))))
put("high.wav", form(format_of(1, 2, 4294967295, 32), chunk(b"data", bytes.fromhex("00000080 ffffff7f"))))
put("empty.wav", form(pcm, chunk(b"data", b"")))
put("cut.wav", form(pcm, two)[:-3])
put("law.wav", form(format_of(7, 1, 8000, 8), chunk(b"data", b"\xff\x7f\x00")))
put("nothing.wav", b"")
put("noise.wav", bytes(range(64)))
put("aligned.wav", form(format_of(1, 1, 8000, 16, align=4), two))
put("silent.wav", form(pcm))
put("formless.wav", form(two))
put("float.wav", form(format_of(3, 1, 8000, 32), two))
put("other.aiff", b"FORM\0\0\0\4AIFF")

bell, chord = frames_of("bell.wav"), frames_of("chord.wav")
described("bell.wav", "pcm_16_le", 1, 8000, len(bell))
described("chord.wav", "pcm_16_le", 2, 22050, len(chord))
described("sub/inner.wav", "pcm_16_le", 1, 8000, len(bell))
described("chunks.wav", "pcm_16_le", 1, 8000, 2, "abcd 5", "cue_ 4", "e??g 6")
described("odd.wav", "pcm_u8", 1, 8000, 3, "last 0")
described("hours.wav", "pcm_u8", 1, 1, 370001)
described("wide.wav", "pcm_24_le", 3, 48000, 2)
described("high.wav", "pcm_32_le", 2, 4294967295, 1)
described("empty.wav", "pcm_16_le", 1, 8000, 0)
described("cut.wav", "pcm_16_le", 1, 8000, 0)
described("law.wav", "ulaw", 1, 8000, 3)
refused("nothing.wav", "1 NotSound")
refused("noise.wav", "1 NotSound")
refused("other.aiff", "2 FloatRate")
refused("formless.wav", "6 NoFormat")
refused("silent.wav", "7 NoData")
refused("float.wav", "10 FloatSamples")
refused("aligned.wav", "14 BadAlign")
refused("missing.wav", "56 MissingFile")
refused("sub/missing.wav", "56 MissingFile")

for words in ([], ["info"], ["describe", "bell.wav"], ["info", "-bell.wav"], ["info", "a b.wav"], ["info", ""], ["info", "x" * 256], ["script", "bell.wav"]):
    cases.case(f"the words {words}", run(program, words, b"open r bell.wav\n", b"", b"snd: bad words\n", 2))

head = f"ok {len(bell)} 1 8000 wave pcm_16_le"
whole = [head]
for at in range(0, len(bell), 1000):
    whole += [f"ok {len(bell[at:at + 1000])}", *bell[at:at + 1000]]
scripted("all frames", b"open r bell.wav\n" + b"read 1000\n" * 4 + b"read 1000\nclose\n", [*whole, "ok 0", f"ok {len(bell)}"], 0)
chord_head = f"ok {len(chord)} 2 22050 wave pcm_16_le"
scripted("places", b"open r chord.wav\nseek r 5510\nread 5\ninfo\nseek rw 3\nread 2\nseek r 5512\nread 1\nseek r 0\nread 1\nclose\n",
         [chord_head, "ok 5510", "ok 2", *chord[5510:], chord_head, "ok 3", "ok 2", *chord[3:5], "ok 5512", "ok 0", "ok 0", "ok 1", chord[0], f"ok {len(chord)}"], 0)
scripted("refused lines", b"read 1\nopen r missing.wav\nopen r bell.wav\nopen r chord.wav\nseek r 4001\nread 1\nread 1025\nfoo\nclose\nclose\n",
         ["error 42 NotOpen", "error 56 MissingFile", head, "error 43 AlreadyOpen", "error 24 SeekRange", "ok 1", bell[0], "error 40 BadCommand", "error 40 BadCommand", f"ok {len(bell)}", "error 42 NotOpen"], 1)
scripted("silent lines", b"\n# open\n   \n  open   r  bell.wav  \n#\n read 1 \nclose", [head, "ok 1", bell[0], f"ok {len(bell)}"], 0)
scripted("nothing", b"", [], 0)
scripted("an open file at the end", b"open r bell.wav\nread 1\n", [head, "ok 1", bell[0]], 0)
scripted("a long line", b"read " + b" " * 4092 + b"\ninfo\n", ["error 41 LineTooLong", "error 42 NotOpen"], 1)
scripted("two files", b"open r wide.wav\nread 9\nclose\nopen r high.wav\nread 9\nclose\n",
         ["ok 2 3 48000 wave pcm_24_le", "ok 2", "-8388608 -1 8388607", "1 0 -2", "ok 2", "ok 1 2 4294967295 wave pcm_32_le", "ok 1", "-2147483648 2147483647", "ok 1"], 0)
scripted("a refused file", b"open r float.wav\nopen r nothing.wav\ninfo\n", ["error 10 FloatSamples", "error 1 NotSound", "error 42 NotOpen"], 1)
cases.end(37)
