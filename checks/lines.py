#!/usr/bin/env -S python3 -B
"""Lines of scripts, words of command lines and chunks of files, as the built program takes them: the rows of lib/line_rows.py. Lines that
have the form of no command are refused with a file open and with none; others are tried in odd spellings, at their longest and with
the largest numbers, and further lines show what they did; texts, broadcast extensions and cue points that libsndfile and ffmpeg wrote
are read, and written as they were. No file changes but the one that a row makes. Needs Python 3."""
import os
import struct

from lib import kinds, line_rows as rows
from lib.head import Cases, first_difference, run, start

program = start()
cases = Cases("lines")


def put(name, content):
    with open(name, "wb") as file:
        file.write(content)


def sound(kind, codec, rate, numbers):
    return kinds.whole_file(kind, codec, 1, rate, numbers)


def short(text):
    return repr(text) if len(text) < 80 else f"{text[:40]!r} .. of {len(text)} bytes"


def ran(words, script, out, err, status, made=()):
    """The faults of a run that makes these files and changes no other, which are removed before it."""
    for name in made:
        if os.path.exists(name):
            os.remove(name)
    wrong = run(program, words, *(it.encode("latin-1") for it in (script, out, err)), status, {f"./{name}" for name in made})
    return wrong + [f"{name} was not made" for name in made if not os.path.isfile(name)]


def replied(pairs):
    """The faults of a script of lines that have these replies, which makes the files that its lines name."""
    out = "".join(f"{reply}\n" for _, reply in pairs if reply)
    made = [line.split()[-1] for line, reply in pairs if line.startswith("create ") and reply.startswith("ok ")]
    refused = any(reply.startswith("error ") for _, reply in pairs)
    return ran(["script"], "".join(f"{line}\n" for line, _ in pairs), out, "", int(refused), made)


def wave(before, behind=(), size=0):
    """A WAVE file of two samples with these chunks, whose head says this size of the whole."""
    packed = [b"".join(kinds.chunk(*piece) for piece in pieces) for pieces in (before, behind)]
    return b"RIFF" + struct.pack("<I", size) + b"WAVE" + kinds.chunk(b"fmt ", kinds.format_body("pcm_u8", 1, 8000)) + packed[0] + kinds.chunk(b"data", b"\x80\x80") + packed[1]


# ---- lines of scripts

for name, it in rows.FILES.items():
    put(name, sound(*it))
for line, before, reply, behind in rows.LINES:
    # a line that says nothing is told from one that ends the script
    cases.case(short(line), replied([*before, (line, reply), *(behind or [("# and a line behind it", ""), ("read x", rows.BAD)])]))
for line in rows.REFUSED:
    wrong = replied([(line, rows.BAD), ("close", "error 42 NotOpen")])
    wrong += replied([*rows.UPDATED, (line, rows.BAD), ("info", rows.OPENED), ("read 1", "ok 1\n0"), ("close", "ok 9")])
    cases.case(f"{line!r} is refused", wrong)

# ---- words of command lines

for name, it in rows.MORE_FILES.items():
    put(name, sound(*it))
for words, status, out, err, pairs in rows.WORDS:
    made = [words[-1]] if status == 0 and words[0] != "info" else []
    cases.case(" ".join(words), ran(words, "", out, err, status, made) or (replied(pairs) if pairs else []))

# ---- chunks

for what, chunks, *replies in rows.ASKED:
    put("f", wave(chunks))
    for line, reply in zip(("get strings", "get bext", "get cues"), replies):
        cases.case(f"{line}: {what}", replied([("open r f", "ok 2 1 8000 wave pcm_u8"), (line, reply)]))
for at, (behind, size, lines) in enumerate(rows.LISTED):
    put("f", wave((), behind, size))
    cases.case(f"info of the chunks behind the data of file {at}", ran(["info", "f"], "", rows.DESCRIBED.format("f", 2, 0) + "".join(f"{line}\n" for line in lines), "", 0))
put("f", wave(rows.SHOWN[0]))
cases.case("info of bytes that are not printed", ran(["info", "f"], "", rows.DESCRIBED.format("f", 2, 0) + "".join(f"{line}\n" for line in rows.SHOWN[1]), "", 0))
for id, body, options, wanted in rows.SET_ANEW:
    names = [f"{i}.wav" for i in range(len(options) + 1)]
    put(names[0], wave([(id, body)]))
    wrong = [fault for i, option in enumerate(options) for fault in ran(["metadata-set", *option, names[i], names[i + 1]], "", "ok 2\n", "", 0, [names[i + 1]])]
    wrong += replied([(f"open r {names[-1]}", "ok 2 1 8000 wave pcm_u8"), (f"get chunk {id.decode()}", rows.bytes_line(wanted))])
    cases.case(f"metadata-set {' '.join(options[-1])}", wrong)
for what, pairs, wanted in rows.SETTING:
    wrong = replied(pairs)
    if wanted and not wrong:
        with open("n", "rb") as file:
            wrong = first_difference("the file", file.read(), wanted)
    cases.case(what, wrong)
cases.end(57 + 64 + 12 + 3 * 8 + 5 + 1 + 3 + 6)
