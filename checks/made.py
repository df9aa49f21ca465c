#!/usr/bin/env -S python3 -B
"""Tables of files that the built program makes and changes, with every byte afterwards. Each tool makes files of some small ones, and what
it refuses changes none. Scripts make files and change them, also of ADPCM, and over one that is pinned. Others set and get further
chunks, texts, fields and cue points; of these what they are answered is compared, and the bytes of one file. What is wanted stands in
lib/made_tools.py and lib/made_rows.py. Needs Python 3."""
import os

from lib import made_rows as rows, made_tools as tools
from lib.head import Cases, first_difference, run, start

program = start()
cases = Cases("made")


def lay(files):
    """Leaves these files in the folder, and no others."""
    for name in os.listdir("."):
        os.remove(name)
    for name, data in files:
        with open(name, "wb") as file:
            file.write(data)


def ran(asked, script, out, err, status, name=None, data=None):
    """The faults of a run that makes or changes at most the file of this name, which holds these bytes then, where some are given."""
    wrong = run(program, asked, script.encode(), out.encode(), err.encode(), status, () if name is None else {f"./{name}"})
    if data is None:
        return wrong
    try:
        with open(name, "rb") as file:
            return wrong + first_difference(name, file.read(), data)
    except OSError as error:
        return [*wrong, str(error)]


# ---- tools
for asked, out, data in tools.MADE:
    lay(tools.FILES)
    # a program that makes nothing must not pass
    wrong = ["what is to be made stands there already"] if (asked[-1], data) in tools.FILES else []
    cases.case(" ".join(asked), wrong + ran(asked, "", out, "", 0, asked[-1], data))
for asked, err in tools.REFUSED:
    lay(tools.FILES)
    cases.case(" ".join(asked), ran(asked, "", "", err, 1))

# ---- scripts that change or make a file, and those over one that is pinned
for table, pinned in ((rows.SCRIPTS, False), (rows.PINNED, True)):
    for what, name, before, script, out, status, after in table:
        lay([] if before is None else [(name, before)])
        asked = ["script", "--auto", name] if pinned else ["script"]
        cases.case(what, ran(asked, script, out, "", status, name, after))

# ---- scripts that make files of ADPCM, and read them
for codec, frames, times, more, out, reading, read, after in rows.ENCODED:
    given = " ".join([frames] * times)
    script = f"create wave {codec} 8000 a.wav\nset string title Dawn\nwrite {given}\n{rows.MIDDLE}{more}\nclose\n"
    lay([])
    wrong = ran(["script"], script, out, "", 1, "a.wav", after)
    lay([("a.wav", after)])
    cases.case(f"frames in {codec}", wrong + ran(["script"], reading, read, "", 0))

# ---- further chunks, texts, fields and cue points
for script, out in rows.CHUNKS:
    lay([])
    wrong = ran(["script"], rows.CREATE + script, rows.CREATED + out, "", int("error " in out), "j.wav")
    cases.case(f"the script {script!r}", wrong)
script, out = rows.CHUNKS[0]
lay([])
wrong = ran(["script"], rows.CREATE + script, rows.CREATED + out, "", 1, "j.wav", rows.FIRST)
lay([("a.wav", rows.FIRST)])
cases.case("the chunks stand in the file, and are told", wrong + ran(["info", "a.wav"], "", rows.TOLD, "", 0))
for script, out in rows.OTHERS:
    lay([])
    name = "j.wav" if script.startswith("create ") else None
    cases.case(f"the script {script!r}", ran(["script"], script, out, "", int("error " in out), name))
cases.end(32 + 28 + 8 + 3 + 4 + 9 + 1 + 4)
