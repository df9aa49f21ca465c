#!/usr/bin/env -S python3 -B
"""Texts, broadcast extensions, cue points and further chunks, between the built program and other programs: files that
sndfile-metadata-set and ffmpeg make are read by scripts and described by `info`, and files that scripts make are read by
sndfile-metadata-get, sndfile-info and ffprobe. What is wanted are the texts that were given. Needs Python 3. Of the Debian
packages sndfile-programs and ffmpeg what is missing is skipped, with a line for each; a program that is there and fails is a
failure."""
import json
import shutil
import struct
import subprocess

from lib.head import SECONDS, Cases, changed, ended, finished, first_difference, start, sums

program = start()
cases = Cases("metadata")
ORDER = ["title", "copyright", "software", "artist", "comment", "date", "album", "genre", "track"]
FIELDS = ["description", "originator", "orig-ref", "orig-date", "orig-time", "time-ref", "coding-hist"]
TEXTS = {"title": "Dawn chorus", "artist": "A. Recordist", "comment": "two microphones, 1 m", "copyright": "none", "date": "2020-05-01", "album": "Field"}
BEXT = {"description": "wood, early", "originator": "snd", "orig-ref": "REF 0001", "orig-date": "2020-05-01", "orig-time": "04:55:12", "time-ref": "849600", "coding-hist": "A=PCM,F=8000"}
skipped = 0


def has(tool, count):
    """Whether a program is there; else so many cases are skipped."""
    global skipped
    if shutil.which(tool):
        return True
    print(f"skipped: {count} cases of metadata, {tool} is missing")
    skipped += count
    return False


def done(words, given=b""):
    """What a program prints, and None and its message where it fails."""
    run = subprocess.run(words, input=given, capture_output=True, timeout=SECONDS)
    if run.returncode != 0:
        return None, [f"{words[0]} ends with {run.returncode}: {run.stderr.decode(errors='replace')}"]
    return run.stdout.decode("latin-1"), []


def source(name):
    """A short WAVE file without further chunks."""
    data = struct.pack("<8h", 1, -1, 2, -2, 300, -300, 32767, -32768)
    with open(name, "wb") as file:
        file.write(struct.pack("<4sI4s4sIHHIIHH4sI", b"RIFF", 36 + len(data), b"WAVE", b"fmt ", 16, 1, 1, 8000, 16000, 2, 16, b"data", len(data)) + data)


def strings(texts):
    return [f"{key} {texts[key]}" for key in ORDER if key in texts]


def script(lines, made=None):
    """What a script prints, or None and its faults; it makes or changes one file at most."""
    before = sums()
    ran = finished([program, "script"], "".join(line + "\n" for line in lines).encode("latin-1"))
    wrong = ended(ran, ran.stdout, b"", 0) if ran else [f"no end within {SECONDS} seconds"]
    wrong += changed(before, sums(), [f"./{made}"])
    return (None, wrong) if wrong else (ran.stdout.decode("latin-1"), [])


def read_back(name, texts, fields, shown):
    """Whether a script and `info` tell these texts and fields of a file."""
    asked = [f"open r {name}"] + (["get strings"] if texts is not None else []) + (["get bext"] if fields is not None else [])
    out, wrong = script(asked)
    if wrong:
        return wrong
    want = []
    if texts is not None:
        want += [f"ok {len(texts)}"] + strings(texts)
    if fields is not None:
        want += ["ok 7"] + [f"{key} {fields[key]}" for key in FIELDS]
    wrong = first_difference("script", out.split("\n")[1:], want + [""])
    out, fault = done([program, "info", name])
    wrong += fault
    if not fault and texts is not None:
        wrong += first_difference("info", [line for line in out.split("\n") if line.startswith("string ")], ["string " + line for line in strings(texts)])
    return wrong + shown


source("plain.wav")

# ---- what sndfile-metadata-set makes
if has("sndfile-metadata-set", 3):
    words = [word for key in TEXTS for word in (f"--str-{key}", TEXTS[key])]
    _, wrong = done(["sndfile-metadata-set", *words, "plain.wav", "set-texts.wav"])
    cases.case("texts of sndfile-metadata-set", wrong or read_back("set-texts.wav", TEXTS, None, []))
    words = [word for key in FIELDS for word in (f"--bext-{key}", BEXT[key])]
    _, wrong = done(["sndfile-metadata-set", *words, "plain.wav", "set-bext.wav"])
    out, fault = script(["open r set-bext.wav", "get bext"])
    wrong = wrong or fault
    if not wrong:
        # libsndfile adds a line of its own to the coding history
        got = out.split("\n")[2:9]
        want = [f"{key} {BEXT[key]}" for key in FIELDS]
        wrong = first_difference("fields", got[:6], want[:6]) + ([] if got[6].startswith(want[6]) else [f"history: {got[6]!r}"])
    cases.case("broadcast extension of sndfile-metadata-set", wrong)
    words = [word for key in TEXTS for word in (f"--str-{key}", TEXTS[key])] + [word for key in FIELDS[:6] for word in (f"--bext-{key}", BEXT[key])]
    _, wrong = done(["sndfile-metadata-set", *words, "plain.wav", "set-both.wav"])
    cases.case("both of sndfile-metadata-set", wrong or read_back("set-both.wav", TEXTS, None, []))

# ---- what ffmpeg makes
if has("ffmpeg", 2):
    more = TEXTS | {"genre": "nature", "track": "7"}
    words = [word for key in more for word in ("-metadata", f"{key}={more[key]}")]
    _, wrong = done(["ffmpeg", "-v", "error", "-y", "-i", "plain.wav", *words, "ffmpeg-texts.wav"])
    if not wrong:
        # ffmpeg adds its own name as the software, and writes the track under an identifier that the table of texts does not have
        out, wrong = script(["open r ffmpeg-texts.wav", "get strings"])
        got = [] if wrong else [line for line in out.split("\n")[2:] if line and not line.startswith("software ")]
        wrong = wrong or first_difference("texts", got, [line for line in strings(more) if not line.startswith("track ")])
    cases.case("texts of ffmpeg", wrong)
    names = {"description": "description", "originator": "originator", "orig-ref": "originator_reference", "orig-date": "origination_date", "orig-time": "origination_time", "time-ref": "time_reference", "coding-hist": "coding_history"}
    words = [word for key in FIELDS for word in ("-metadata", f"{names[key]}={BEXT[key]}")]
    _, wrong = done(["ffmpeg", "-v", "error", "-y", "-i", "plain.wav", "-write_bext", "1", *words, "ffmpeg-bext.wav"])
    if not wrong:
        out, wrong = script(["open r ffmpeg-bext.wav", "get bext"])
        wrong = wrong or first_difference("fields", out.split("\n")[1:9], ["ok 7"] + [f"{key} {BEXT[key]}" for key in FIELDS[:6]] + [out.split("\n")[8]])
        wrong = wrong or ([] if out.split("\n")[8].startswith(f"coding-hist {BEXT['coding-hist']}") else [f"history: {out.split(chr(10))[8]!r}"])
    cases.case("broadcast extension of ffmpeg", wrong)

# ---- what scripts make, read by the others
# In RF64 libsndfile passes over no pad byte behind an odd chunk that it does not know, so there the chunk is even.
for kind, name, body in (("wave", "made.wav", "0102ff"), ("rf64", "made.rf64", "0102ff00")):
    sets = [f"set string {key} {TEXTS[key]}" for key in TEXTS] + [f"set bext {key} {BEXT[key]}" for key in FIELDS] + ["set cue 2 5", f"set chunk abcd {body}"]
    lines = [f"create {kind} pcm_16_le 1 8000 {name}", *sets, "write 1 -1 2 -2 300 -300 32767 -32768", "close"]
    out, wrong = script(lines, name)
    if not wrong:
        wrong = first_difference("answers", out.split("\n"), [f"ok 0 1 8000 {kind} pcm_16_le"] + ["ok"] * len(sets) + ["ok 8", "ok 8", ""])
    cases.case(f"{kind} with metadata is made", wrong or read_back(name, TEXTS, BEXT, []))
    if has("sndfile-metadata-get", 1):
        out, wrong = done(["sndfile-metadata-get", "--all", name])
        got = {} if wrong else {line.split(":", 1)[0].strip(): line.split(":", 1)[1].strip() for line in out.split("\n") if " : " in line}
        want = {"Description": BEXT["description"], "Originator": BEXT["originator"], "Origination ref": BEXT["orig-ref"], "Origination date": BEXT["orig-date"], "Origination time": BEXT["orig-time"], "Coding history": BEXT["coding-hist"],
                "Name": TEXTS["title"], "Copyright": TEXTS["copyright"], "Artist": TEXTS["artist"], "Comment": TEXTS["comment"], "Create date": TEXTS["date"], "Album": TEXTS["album"]}
        cases.case(f"{kind} by sndfile-metadata-get", wrong or [f"{key}: {got.get(key)!r}, and {text!r} is to be" for key, text in want.items() if got.get(key) != text])
    if has("ffprobe", 1):
        out, wrong = done(["ffprobe", "-v", "error", "-show_format", "-of", "json", name])
        tags = {} if wrong else json.loads(out)["format"].get("tags", {})
        # ffprobe tells one comment, and takes the description of the broadcast extension for it
        want = {key: TEXTS[key] for key in TEXTS if key != "comment"} | {"comment": BEXT["description"], "time_reference": BEXT["time-ref"], "coding_history": BEXT["coding-hist"], "originator_reference": BEXT["orig-ref"], "encoded_by": BEXT["originator"]}
        cases.case(f"{kind} by ffprobe", wrong or [f"{key}: {tags.get(key)!r}, and {text!r} is to be" for key, text in want.items() if tags.get(key) != text])
    if has("sndfile-info", 1):
        out, wrong = done(["sndfile-info", name])
        want = ["Frames      : 8", "cue  : 52"] if kind == "wave" else ["Frames      : 8"]
        cases.case(f"{kind} by sndfile-info", wrong or [f"no line {line!r}" for line in want if line not in (out or "")])

# ---- every chunk keeps its bytes through updates
out, wrong = script(["open u made.wav", "write 7 7", "seek w 8", "write 9 9 9", "truncate 5", "update", "auto on", "write 1", "get strings", "get cues", "get chunk abcd", "close"], "made.wav")
if not wrong:
    want = ["ok 8 1 8000 wave pcm_16_le", "ok 2", "ok 8", "ok 3", "ok 5", "ok 5", "ok 5", "ok 1", f"ok {len(TEXTS)}", *strings(TEXTS), "ok 2", "1 2", "2 5", "ok 3 0102ff", "ok 6", ""]
    wrong = first_difference("answers", out.split("\n"), want)
cases.case("chunks through updates", wrong or read_back("made.wav", TEXTS, BEXT, []))
cases.end(14 - skipped, f", {skipped} skipped" if skipped else "")
