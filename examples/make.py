#!/usr/bin/env python3
"""Makes the sound files of this folder: make.py [FOLDER]. The same bytes each time."""
import math
import struct
import sys
import pathlib


def wave(channels, rate, frames):
    """A WAVE file of 16-bit samples, with a head of 44 bytes."""
    samples = b"".join(struct.pack("<h", value) for frame in frames for value in frame)
    head = struct.pack("<4sI4s4sIHHIIHH4sI", b"RIFF", 36 + len(samples), b"WAVE", b"fmt ", 16, 1, channels, rate,
                       2 * channels * rate, 2 * channels, 16, b"data", len(samples))
    return head + samples


def tone(rate, seconds, *pitches):
    """A frame has one number a channel: that channel's pitch, with its loudness falling to nothing."""
    count = int(rate * seconds)
    for i in range(count):
        yield [round(12000 * (1 - i / count) * math.sin(2 * math.pi * pitch * i / rate)) for pitch in pitches]


def main():
    folder = pathlib.Path(sys.argv[1] if len(sys.argv) > 1 else __file__).resolve()
    folder = folder if folder.is_dir() else folder.parent
    (folder / "bell.wav").write_bytes(wave(1, 8000, tone(8000, 0.5, 440)))
    (folder / "chord.wav").write_bytes(wave(2, 22050, tone(22050, 0.25, 330, 495)))


main()
