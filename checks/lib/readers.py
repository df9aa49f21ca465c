"""What sox, libsndfile's programs and ffmpeg say of a sound file, and the samples that they decode; and what they are known to do
otherwise, which is skipped with a line that gives the reason."""
import atexit
import os
import re
import shutil
import struct
import subprocess
import tempfile

from lib import kinds

# by the program and the kind
NO_COUNT = {
    ("soxi", "voc"): "it says 0 frames of each VOC file",
    ("ffprobe", "voc"): "it takes the head of a VOC file for frames",
    ("ffprobe", "w64"): "it takes the count of frames that ffmpeg puts into `fact`, and ffmpeg's size of the data counts its padding too",
}
# by the program and the kind, and where it is so of some files alone by their maker, codec and channels
NO_READING = {
    ("ffmpeg", "dns"): "it does not know AU files with the lowest byte first",
    ("sox", "sphere", None, "alaw"): "it does not know A-law in SPHERE files",
    ("sndfile", "voc", "ffmpeg", "pcm_u8"): "it opens no VOC file with more than one block of type 1",
}
NO_DECODING = {
    (tool, "w64", "ffmpeg", law, 3): "it takes the laws of an extensible Wave64 head for linear samples of 8 bits" for law in kinds.LAWS for tool in ("sox", "sndfile")
}
ROUNDED = {"ima": "it rounds the differences of IMA ADPCM otherwise than the sum of halved steps", "ms": "it rounds the predictions of Microsoft ADPCM toward zero"}
NO_DECODING |= {
    ("ffmpeg", kind, maker, codec, channels): why
    for codec, why in ROUNDED.items() for kind in ("wave", "w64") for maker in ("sox", "sndfile", "ffmpeg") for channels in (1, 2)
}
# the padding that some count as frames where there is some, by the kind: to so many bytes
PADDED = {"w64": 8, "svx": 2}
PADDING = {
    ("sndfile", "w64"): "it counts the padding of Wave64 data as frames", ("sox", "w64"): "it counts the padding of Wave64 data as frames",
    ("sndfile", "svx"): "it counts the padding of an 8SVX body as a frame", ("ffmpeg", "svx"): "it counts the padding of an 8SVX body as a frame",
}


def out_of(*words):
    return subprocess.run(words, check=True, capture_output=True).stdout


class Readers:
    """The programs that are installed. What is missing or skipped is said once, with the name of the check."""

    def __init__(self, check):
        self.check, self.told = check, set()
        self.tools = {"sox": self.has("sox", "soxi"), "sndfile": self.has("sndfile-convert", "sndfile-info", "sndfile-metadata-set"), "ffmpeg": self.has("ffmpeg", "ffprobe")}

    def has(self, *names):
        missing = [name for name in names if not shutil.which(name)]
        if missing:
            print(f"{self.check}: skipped: what {' and '.join(names)} make and say, since {missing[0]} is not installed")
        return not missing

    def skip(self, tool, why):
        """Says once what is skipped of a program, where there is a reason, which it gives back."""
        if why and (tool, why) not in self.told:
            self.told.add((tool, why))
            print(f"{self.check}: skipped: {tool}: {why}")
        return why

    def cannot(self, tool, it, maker):
        """Why a program is known not to read such a file, or None."""
        found = (NO_READING.get(key) for key in ((tool, it.kind), (tool, it.kind, None, it.codec), (tool, it.kind, maker, it.codec)))
        return self.skip(tool, next((why for why in found if why), None))

    def pads(self, tool, it):
        """Why a program is known to read more frames than such a file has, or None."""
        return len(it.data) % PADDED.get(it.kind, 1) and self.skip(tool, PADDING.get((tool, it.kind)))

    def said(self, name, it, maker=None, but=()):
        """The channels, the rate and the frames of a file, as each program but these says them; no frames where that is known."""
        found = {}
        if self.tools["sox"] and not self.cannot("sox", it, maker):
            found["soxi"] = [int(out_of("soxi", option, name)) for option in ("-c", "-r", "-s")]
        if self.tools["sndfile"] and not self.cannot("sndfile", it, maker):
            text = out_of("sndfile-info", name).decode("latin-1")
            found["sndfile-info"] = [int(re.search(rf"^{word} *: (\d+)", text, re.M)[1]) for word in ("Channels", "Sample Rate", "Frames")]
        if self.tools["ffmpeg"] and "ffmpeg" not in but and not self.cannot("ffmpeg", it, maker):
            text = out_of("ffprobe", "-v", "error", "-show_entries", "stream=channels,sample_rate,duration_ts", "-of", "default=noprint_wrappers=1", name).decode()
            found["ffprobe"] = [int(re.search(rf"^{word}=(\d+)", text + "duration_ts=0", re.M)[1]) for word in ("channels", "sample_rate", "duration_ts")]
        for tool in found:
            reader = {"soxi": "sox", "sndfile-info": "sndfile", "ffprobe": "ffmpeg"}[tool]
            if self.skip(tool, NO_COUNT.get((tool, it.kind))) or self.pads(reader, it):
                found[tool].pop()
        return found

    def decoders(self, it, maker=None):
        """The programs that decode such a file, but for its maker, if there is another."""
        readers = [tool for tool in self.tools if self.tools[tool] and not self.cannot(tool, it, maker)]
        readers = [tool for tool in readers if not self.skip(tool, NO_DECODING.get((tool, it.kind, maker, it.codec, it.channels)))]
        if len(readers) > 1 and maker in readers:
            readers.remove(maker)
        return readers

    def decoded(self, name, it, maker=None, but=()):
        """The samples of a file, as each program decodes them but its maker, and these; its maker's where there is no other."""
        readers = [tool for tool in self.decoders(it, maker) if tool not in but]
        found, bits = {}, kinds.width(it.codec)
        if "sox" in readers:
            found["sox"] = out_of("sox", name, "-t", "raw", "-e", "signed-integer", "-b", "32", "-L", "-")
        if "ffmpeg" in readers:
            found["ffmpeg"] = out_of("ffmpeg", "-v", "error", "-i", name, "-f", "s32le", "-c:a", "pcm_s32le", "-")
        if "sndfile" in readers:
            out_of("sndfile-convert", "-pcm32", name, "decoded.au")
            with open("decoded.au", "rb") as file:
                au = file.read()
            body = au[struct.unpack_from(">I", au, 4)[0]:]
            found["sndfile"] = struct.pack(f"<{len(body) // 4}i", *struct.unpack(f">{len(body) // 4}i", body))
            subprocess.run(["rm", "decoded.au"], check=True)
        samples = {tool: [x >> (32 - bits) for x in struct.unpack(f"<{len(raw) // 4}i", raw)] for tool, raw in found.items()}
        return {tool: found[:it.frames * it.channels] if self.pads(tool, it) else found for tool, found in samples.items()}


class Later:
    """Copies of files that ffmpeg decodes many at once, since it takes long to start; and the cases that wait for that, with the faults
    that they have so far."""

    def __init__(self, readers, at_once=40):
        self.readers, self.at_once, self.cases, self.asked = readers, at_once, [], []
        self.folder = tempfile.mkdtemp()
        atexit.register(shutil.rmtree, self.folder, True)
        self.count = 0

    def ask(self, what, name, it, rate, samples, maker=None, is_short=False):
        """Keeps a copy of a file that is to hold these samples, for the case that comes next, where ffmpeg decodes such files, and says
        whether it does."""
        decodes = "ffmpeg" in self.readers.decoders(it, maker)
        if decodes:
            self.count += 1
            copy = f"{self.folder}/{self.count}{os.path.splitext(name)[1]}"
            shutil.copyfile(name, copy)
            self.asked.append((what, copy, it, rate, samples, is_short))
        return decodes

    def case(self, name, wrong):
        """A case that waits for the files that were kept since the one before."""
        self.cases.append((name, wrong, self.asked))
        self.asked = []

    def decode(self, copies):
        """Has ffmpeg decode these, each into an AU file of 32 bits; each alone, where it fails. Gives the faults by the file."""
        inputs = [word for copy in copies for word in ("-i", copy)]
        outputs = [word for i, copy in enumerate(copies) for word in ("-map", f"{i}:a", "-f", "au", "-c:a", "pcm_s32be", f"{copy}.decoded")]
        done = subprocess.run(["ffmpeg", "-v", "error", "-y", *inputs, *outputs], stdin=subprocess.DEVNULL, capture_output=True)
        if not done.returncode:
            return {}
        if len(copies) == 1:
            return {copies[0]: f"ffmpeg failed: {done.stderr.decode('latin-1')[-200:]}"}
        return {name: fault for copy in copies for name, fault in self.decode([copy]).items()}

    def wrong(self, what, copy, it, rate, samples, is_short):
        """The faults of what was decoded of a file."""
        with open(f"{copy}.decoded", "rb") as file:
            au = file.read()
        start, _, _, *found = struct.unpack_from(">5I", au, 4)
        numbers = [x >> (32 - kinds.width(it.codec)) for x in struct.unpack(f">{(len(au) - start) // 4}i", au[start:])]
        numbers = numbers[:it.frames * it.channels] if is_short or self.readers.pads("ffmpeg", it) else numbers
        faults = [f"{what}: ffmpeg says the rate and the channels {found}"] * (found != [rate, it.channels])
        return faults + [f"{what}: ffmpeg {fault}" for fault in other_numbers(numbers, samples)]

    def end(self, cases):
        """Counts the cases that have waited."""
        asked = [it for _, _, each in self.cases for it in each]
        failed = {}
        for at in range(0, len(asked), self.at_once):
            failed |= self.decode([copy for _, copy, *_ in asked[at:at + self.at_once]])
        for name, wrong, each in self.cases:
            cases.case(name, wrong + [fault for it in each for fault in ([f"{it[0]}: {failed[it[1]]}"] if it[1] in failed else self.wrong(*it))])


def other_numbers(numbers, samples):
    """A line on where numbers that were decoded are others than these, or none."""
    if numbers == samples:
        return []
    at = next((i for i, (a, b) in enumerate(zip(numbers, samples)) if a != b), min(len(numbers), len(samples)))
    return [f"decodes {len(numbers)} numbers for {len(samples)}, other from {at} on: {numbers[at:at + 4]} for {samples[at:at + 4]}"]
