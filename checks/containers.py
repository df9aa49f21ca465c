#!/usr/bin/env -S python3 -B
"""Tables of small files, words and scripts, and what the built program answers them. Files of every kind, by each of its codecs and by
one, two and three channels as far as the kind holds them, most of which libsndfile and SoX made, are described and read. So are heads
that sox, libsndfile and ffmpeg wrote or that were written by hand, which are updated, too, or are refused by their number. Then come
words, scripts, lines that are too long, heads that are cut or damaged, and files that scripts change or make. What is wanted stands in
lib/containers_rows.py, lib/containers_heads.py, lib/containers_words.py and
lib/containers_made.py. Needs Python 3."""
import os
import struct

from lib import containers_heads as heads, containers_made as made, containers_rows as rows, containers_words as words, kinds
from lib.head import Cases, first_difference, run, start
from lib.kinds import chunk

program = start()
cases = Cases("containers")
READ = "open r a.wav\nread 1024\nclose\n"
UPDATE = "open u a.wav\ntruncate 0\nwrite 5 5\nclose\n"
# the bytes of the longest script
LONGEST = 16777216


def put(data):
    with open("a.wav", "wb") as file:
        file.write(data)


def ran(asked, script, out, err, status, changes=()):
    return run(program, asked, script.encode(), out.encode(), err.encode(), status, changes)


def described(out):
    return ran(["info", "a.wav"], "", out, "", 0)


def opened(name, data, told, read, status=0, update=None):
    """A file that is described and read, and updated where it is said what that is answered."""
    put(data)
    wrong = described(told) + ran(["script"], READ, read, "", status)
    if update is not None:
        wrong += ran(["script"], UPDATE, update, "", int("error " in update), {"./a.wav"})
    cases.case(name, wrong)


def refused(name, data, error):
    """A file that is refused, by each call that opens one."""
    put(data)
    wrong = ran(["info", "a.wav"], "", "", f"snd: a.wav: error {error}\n", 1)
    cases.case(f"{name}: {error}", wrong + ran(["script"], "open r a.wav\nopen u a.wav\n", f"error {error}\n" * 2, "", 1))


def wave(form, data, fact=None):
    """A WAVE file with this body of the format chunk, and with a count of frames where one is given."""
    count = b"" if fact is None else chunk(b"fact", struct.pack("<I", fact))
    return chunk(b"RIFF", b"WAVE" + chunk(b"fmt ", form) + count + chunk(b"data", data))


def told_of(codec, channels, rate, frames):
    """What is said of a WAVE file with no further chunks."""
    it = kinds.Stated("wave", codec, channels, rate, b"")
    it.frames = frames
    return "".join(f"{line}\n" for line in it.lines("a.wav"))


# ---- files of every kind
for name, head, data, told, read in rows.FILES:
    opened(name, head + data, told, read)
for name, form, fact, data, told, read, status in rows.WAVE:
    opened(f"WAVE, {name}", wave(form, data, fact), told, read, status)

# ---- heads
for name, data, told, read, update in heads.OPENED:
    opened(name, data, told, read, update=update)
for row in heads.REFUSED:
    refused(*row)
for name, form, codec, channels, rate, size, each in heads.FORMATS:
    wrong = []
    # two blocks, and as many bytes but one
    for length, frames in ((2 * size, 2 * each), (2 * size - 1, each)):
        put(wave(form, bytes(length)))
        wrong += described(told_of(codec, channels, rate, frames))
    cases.case(f"the format of {name}", wrong)
for name, form, error in heads.BAD_FORMATS:
    refused(f"the format of {name}", b"RIFF\0\0\0\0WAVE" + chunk(b"fmt ", form) + b"data\0\0\0\0", error)

for name, form, codec, channels, rate, _, _ in heads.FORMATS[:8]:
    wrong = ran(["script"], f"create wave {codec} {channels} {rate} made.wav\n", f"ok 0 {channels} {rate} wave {codec}\n", "", 0, {"./made.wav"})
    with open("made.wav", "rb") as file:
        cases.case(f"a file is made with the format of {name}", wrong + first_difference("the format", file.read()[12:20 + len(form)], chunk(b"fmt ", form)))
    os.remove("made.wav")
for name, data, asked, out in heads.BEHIND:
    for more in (b"", b"JUNKED"):
        put(data + more)
        cases.case(f"{name}, chunks behind the data, and {len(more)} bytes", ran(["script"], f"open r a.wav\nread 9\nget chunks\n{asked}", out, "", 1))

# ---- words
for asked, data, out, err, status in words.WORDS:
    put(data)
    cases.case(f"the words {asked}, {len(data)} bytes", ran(asked, "", out, err, status))
put(words.PLAIN)
for asked in words.BAD_WORDS:
    cases.case(f"the words {asked}", ran(asked, "info\n", "", "snd: bad words\n", 2))

# ---- heads that are cut or damaged
for name, whole, codec in (("two frames of 16 bits", words.PLAIN, "pcm_16_le"), ("three of 8 bits", words.BYTES, "pcm_u8"), ("two with a title", words.TITLED, "pcm_16_le")):
    wrong = []
    for size in range(len(whole)):
        put(whole[:size])
        error = next((message for last, message in words.PREFIXES if size <= last), "")
        held = min(size - 44, 4) // kinds.size(codec)
        out = "" if error else told_of(codec, 1, 8000, held)
        wrong += [f"{size} bytes: {it}" for it in ran(["info", "a.wav"], "", out, error, int(size < 44))]
    cases.case(f"each prefix of {name}", wrong)
for at, byte, message in words.DAMAGES:
    put(words.PLAIN[:at] + bytes([byte]) + words.PLAIN[at + 1:])
    cases.case(f"the byte {byte} at {at}", ran(["info", "a.wav"], "", "", message, 1))

# ---- scripts
for script, data, out, status in words.SCRIPTS:
    put(data)
    cases.case(f"the script {script!r}", ran(["script"], script, out, "", status))
put(words.PLAIN)
script, out = words.MAKING
wrong = ran(["script"], script, out, "", 1, {"./b"})
if os.path.exists("b"):
    with open("b", "rb") as file:
        wrong += first_difference("b", file.read(), kinds.whole_file("au", "pcm_s8", 1, 8000, [-128, 127, 5]))
    os.remove("b")
cases.case("a script that makes a file", wrong)
for length, out, status in words.LINES:
    cases.case(f"a line of {length} bytes", ran(["script"], "#" * length, out, "", status))
script, out = "open r a.wav\n".ljust(LONGEST, "\n"), "ok 2 1 8000 wave pcm_16_le\n"
cases.case("the longest script", ran(["script"], script, out, "", 0))
cases.case("a script with a byte more", ran(["script"], script + "\n", out, "snd: script too long\n", 2))

# ---- files that are changed or made
for name, before, script, out, end in made.MADE:
    if os.path.exists("a.wav"):
        os.remove("a.wav")
    if before is not None:
        put(before)
    wrong = ran(["script"], script, out, "", int("error " in out), () if end is None else {"./a.wav"})
    if end is not None and os.path.exists("a.wav"):
        with open("a.wav", "rb") as file:
            data = file.read()
        wrong += first_difference("a.wav", data if end[:4] in (b"RIFF", b"RF64", b"FORM") else data[-len(end):], end)
    cases.case(name, wrong)
for kind, codec, channels, head in made.HEADS:
    # over a file that stands there
    put(b"what stood there".ljust(200, b"."))
    wrong = ran(["script"], f"create {kind} {codec} {channels} 8000 a.wav\nclose\n", f"ok 0 {channels} 8000 {kind} {codec}\nok 0\n", "", 0, {"./a.wav"})
    with open("a.wav", "rb") as file:
        cases.case(f"the head of {kind} {codec} of {channels} channels", wrong + first_difference("a.wav", file.read(), head))
cases.end(71 + 23 + 30 + 21 + 13 + 13 + 5 + 20 + 3 + 14 + 15 + 1 + 4 + 2 + 9 + 8 + 6 + 5 + 16)
