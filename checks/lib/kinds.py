"""The kinds of sound files and their codecs, as the checks know them beside the program: sample bytes both ways, the file that a
new one is to be, and what the head of any file says.

The laws are those of ITU-T G.711 (1988). The heads follow "Multimedia Programming Interface and Data Specifications 1.0" (1991)
for WAVE, EBU Tech 3306 (2009) for RF64, Sony's description of Wave64 (2003), the NeXT and Sun header file for AU, Creative's
description of VOC, "EA IFF 85: 8SVX" (1985), and the NIST SPHERE manual."""
import struct

LINEAR = {"pcm_u8": 8, "pcm_s8": 8, "pcm_16_le": 16, "pcm_24_le": 24, "pcm_32_le": 32, "pcm_16_be": 16, "pcm_24_be": 24, "pcm_32_be": 32}
LAWS = ("ulaw", "alaw")
LITTLE = ("pcm_16_le", "pcm_24_le", "pcm_32_le")
BIG = ("pcm_16_be", "pcm_24_be", "pcm_32_be")
# the codecs that each kind holds, and the most channels that are tried
HOLDS = {
    "wave": ("pcm_u8", *LITTLE, *LAWS),
    "rf64": ("pcm_u8", *LITTLE, *LAWS),
    "w64": ("pcm_u8", *LITTLE, *LAWS),
    "au": ("pcm_s8", *BIG, *LAWS),
    "dns": ("pcm_s8", *LITTLE, *LAWS),
    "voc": ("pcm_u8", "pcm_16_le", *LAWS),
    "svx": ("pcm_s8",),
    "sphere": ("pcm_16_le", "pcm_16_be", *LAWS),
}
MOST = {"voc": 2, "svx": 1}
# a suffix by which the peers know a kind
SUFFIX = {"wave": "wav", "rf64": "rf64", "w64": "w64", "au": "au", "dns": "au", "voc": "voc", "svx": "8svx", "sphere": "sph"}
FILLERS = (b"JUNK", b"junk", b"FLLR", b"PAD ")


def width(codec):
    """The bits of a codec's numbers."""
    return LINEAR.get(codec, 16)


def size(codec):
    """The bytes of a sample."""
    return LINEAR.get(codec, 8) // 8


# ---- samples

def mulaw_byte(x):
    m = min(abs(x), 32635) + 132
    e = m.bit_length() - 8
    return 255 - ((128 if x < 0 else 0) + 16 * e + (m >> (e + 3) & 15))


def mulaw_value(byte):
    u = 255 - byte
    t = ((u & 15) * 8 + 132) << (u >> 4 & 7)
    return 132 - t if u & 128 else t - 132


def alaw_byte(x):
    m, s = (x, 128) if x >= 0 else (-x - 1, 0)
    e = 0 if m < 256 else m.bit_length() - 8
    return (s + 16 * e + (m >> (e + 3 if e else 4) & 15)) ^ 0x55


def alaw_value(byte):
    a = byte ^ 0x55
    t, e = (a & 15) * 16, a >> 4 & 7
    m = t + 8 if e == 0 else (t + 264) << (e - 1)
    return m if a & 128 else -m


def coded(codec, numbers):
    """The bytes of numbers."""
    if codec in LAWS:
        return bytes(map(mulaw_byte if codec == "ulaw" else alaw_byte, numbers))
    if codec == "pcm_u8":
        return bytes(x + 128 for x in numbers)
    order = "big" if codec.endswith("be") else "little"
    return b"".join((x % (1 << width(codec))).to_bytes(size(codec), order) for x in numbers)


def numbers_of(codec, data):
    """The numbers of bytes."""
    if codec in LAWS:
        return list(map(mulaw_value if codec == "ulaw" else alaw_value, data))
    if codec == "pcm_u8":
        return [x - 128 for x in data]
    order, step = "big" if codec.endswith("be") else "little", size(codec)
    return [int.from_bytes(data[i:i + step], order, signed=True) for i in range(0, len(data), step)]


def kept(codec, numbers):
    """The numbers that are read where these were written: of a law the values of their bytes."""
    return numbers_of(codec, coded(codec, numbers))


# ---- files that are made

def w64_id(name):
    return name + bytes.fromhex("2e91cf11a5d628db04c10000" if name == b"riff" else "f3acd3118cd100c04f8edb8a")


def chunk(name, body, order="<"):
    return name + struct.pack(f"{order}I", len(body)) + body + b"\0" * (len(body) % 2)


def w64_chunk(name, body):
    return w64_id(name) + struct.pack("<Q", 24 + len(body)) + body + b"\0" * (-len(body) % 8)


def format_body(codec, channels, rate):
    """The body of `fmt `: 16 bytes for linear samples, 18 for the laws."""
    tag = {"ulaw": 7, "alaw": 6}.get(codec, 1)
    align = channels * size(codec)
    body = struct.pack("<HHIIHH", tag, channels, rate, min(rate * align, 0xFFFFFFFF), align, 8 * size(codec))
    return body + (b"\0\0" if codec in LAWS else b"")


def riff(kind, codec, channels, rate, data, pieces=b"", behind=b""):
    law, frames = codec in LAWS, len(data) // (channels * size(codec))
    body = chunk(b"fmt ", format_body(codec, channels, rate)) + pieces
    if kind == "rf64":
        whole = 12 + 36 + len(body) + 8 + len(data) + len(data) % 2 + len(behind)
        ds64 = chunk(b"ds64", struct.pack("<QQQI", whole - 8, len(data), frames, 0))
        return b"RF64\xff\xff\xff\xffWAVE" + ds64 + body + b"data\xff\xff\xff\xff" + data + b"\0" * (len(data) % 2) + behind
    body += (chunk(b"fact", struct.pack("<I", frames)) if law else b"") + chunk(b"data", data) + behind
    return b"RIFF" + struct.pack("<I", 4 + len(body)) + b"WAVE" + body


def w64(codec, channels, rate, data, pieces=b"", behind=b""):
    frames = len(data) // (channels * size(codec))
    body = w64_chunk(b"fmt ", format_body(codec, channels, rate)) + pieces
    body += (w64_chunk(b"fact", struct.pack("<Q", frames)) if codec in LAWS else b"") + w64_chunk(b"data", data) + behind
    return w64_id(b"riff") + struct.pack("<Q", 40 + len(body)) + w64_id(b"wave") + body


def au(kind, codec, channels, rate, data, offset=24):
    encoding = {"ulaw": 1, "alaw": 27}.get(codec) or 1 + size(codec)
    order, magic = (">", b".snd") if kind == "au" else ("<", b"dns.")
    return magic + struct.pack(f"{order}5I", offset, len(data), encoding, rate, channels) + b"\0" * (offset - 24) + data


VOC = b"Creative Voice File\x1a" + struct.pack("<HHH", 26, 0x0114, 0x111F)


def voc_block(type, body):
    return bytes([type]) + struct.pack("<I", len(body))[:3] + body


def voc(codec, channels, rate, data):
    number = {"pcm_u8": 0, "pcm_16_le": 4, "alaw": 6, "ulaw": 7}[codec]
    return VOC + voc_block(9, struct.pack("<IBBH4x", rate, 8 * size(codec), channels, number) + data) + b"\0"


def voice_header(rate, frames, octaves=1, compression=0):
    return chunk(b"VHDR", struct.pack(">IIIHBBI", frames, 0, 0, rate, octaves, compression, 0x10000), ">")


def form(body):
    return b"FORM" + struct.pack(">I", 4 + len(body)) + b"8SVX" + body


def svx(rate, data, pieces=b"", behind=b""):
    return form(voice_header(rate, len(data)) + pieces + chunk(b"BODY", data, ">") + behind)


def sphere_lines(codec, channels, rate, frames):
    """The lines of a new head. The count of frames has ten digits."""
    law = codec in LAWS
    order = "-s1 1" if law else "-s2 01" if codec == "pcm_16_le" else "-s2 10"
    return [f"channel_count -i {channels}", f"sample_count -i {frames:010}", f"sample_rate -i {rate}", f"sample_n_bytes -i {size(codec)}",
            f"sample_byte_format {order}", f"sample_sig_bits -i {8 * size(codec)}", f"sample_coding {f'-s4 {codec}' if law else '-s3 pcm'}"]


def sphere_head(lines, first=b"NIST_1A\n   1024\n", end="end_head\n"):
    return (first + "".join(f"{line}\n" for line in lines).encode() + end.encode()).ljust(1024)


def file_of(kind, codec, channels, rate, data):
    """The file of a kind that holds these sample bytes and nothing else, as a new one is to be."""
    if kind in ("wave", "rf64"):
        return riff(kind, codec, channels, rate, data)
    if kind == "w64":
        return w64(codec, channels, rate, data)
    if kind in ("au", "dns"):
        return au(kind, codec, channels, rate, data)
    if kind == "voc":
        return voc(codec, channels, rate, data)
    if kind == "svx":
        return svx(rate, data)
    return sphere_head(sphere_lines(codec, channels, rate, len(data) // (channels * size(codec)))) + data


def whole_file(kind, codec, channels, rate, numbers):
    """The file of a kind that holds these numbers and nothing else."""
    return file_of(kind, codec, channels, rate, coded(codec, numbers))


# ---- what a file says

TEXTS = {b"INAM": "title", b"ICOP": "copyright", b"ISFT": "software", b"IART": "artist", b"ICMT": "comment", b"ICRD": "date", b"IPRD": "album",
         b"IGNR": "genre", b"ITRK": "track"}


def info_texts(b, chunks):
    """The lines of the texts of the first INFO list, in the order of the table; none where it does not read."""
    body = next((b[at:at + many] for id, at, many in chunks if id == b"LIST" and b[at:at + min(many, 4)] == b"INFO"), b"")
    at, found = 4, {}
    while at + 8 <= len(body):
        id, many = body[at:at + 4], struct.unpack_from("<I", body, at + 4)[0]
        if at + 8 + many > len(body):
            return []
        found.setdefault(id, body[at + 8:at + 8 + many].split(b"\0")[0])
        at += 8 + many + many % 2
    shown = lambda text: "".join(chr(it) if 32 <= it <= 126 else "?" for it in text)
    return [f"{key} {shown(found[id])}" for id, key in TEXTS.items() if id in found] if len(body) <= 65536 else []


class Stated:
    """What the head of a file says: its kind, codec, channels, rate, the bytes of its frames, its further chunks, and its texts."""

    def __init__(self, kind, codec, channels, rate, data, rest=(), texts=()):
        self.kind, self.codec, self.channels, self.rate, self.rest, self.texts = kind, codec, channels, rate, list(rest), list(texts)
        self.frames = len(data) // (channels * size(codec))
        self.data = data[:self.frames * channels * size(codec)]

    def lines(self, name):
        """What is to be said of the file."""
        ms = self.frames * 1000 // self.rate
        shown = lambda id: "".join("_" if it == 32 else chr(it) if 33 <= it <= 126 else "?" for it in id)
        return [f"name {name}", f"kind {self.kind}", f"codec {self.codec}", f"channels {self.channels}", f"rate {self.rate}", f"frames {self.frames}",
                f"duration {ms // 3600000:02}:{ms // 60000 % 60:02}:{ms // 1000 % 60:02}.{ms % 1000:03}", *(f"chunk {shown(id)} {many}" for id, many in self.rest), *(f"string {line}" for line in self.texts)]


def codec_of(body):
    """The codec, the channels and the rate of a `fmt ` body."""
    tag, channels, rate, _, _, bits = struct.unpack_from("<HHIIHH", body)
    tag = struct.unpack_from("<H", body, 24)[0] if tag == 0xFFFE else tag
    return {7: "ulaw", 6: "alaw"}.get(tag) or ("pcm_u8" if bits == 8 else f"pcm_{bits}_le"), channels, rate


def riff_chunks(b, order):
    """The chunks of a RIFF or IFF file in order: id, place of the body, size. Behind the data they count as far as the whole goes."""
    at, found, end = 12, [], len(b)
    while at + 8 <= end:
        id, many = b[at:at + 4], struct.unpack_from(f"{order}I", b, at + 4)[0]
        if id in (b"data", b"BODY"):
            many = struct.unpack_from("<Q", b, 28)[0] if b[:4] == b"RF64" else many
            whole = struct.unpack_from("<Q", b, 20)[0] if b[:4] == b"RF64" else struct.unpack_from(f"{order}I", b, 4)[0]
            end = min(end, 8 + whole)
        elif at + 8 + many > end:
            break
        found.append((id, at + 8, many))
        at += 8 + many + many % 2
    return found


def stated_riff(b):
    chunks = riff_chunks(b, "<")
    bodies = {id: b[at:at + many] for id, at, many in reversed(chunks)}
    rest = [(id, many) for id, _, many in chunks if id not in (b"fmt ", b"data", b"fact", b"ds64", *FILLERS)]
    return Stated("rf64" if b[:4] == b"RF64" else "wave", *codec_of(bodies[b"fmt "]), bodies[b"data"], rest, info_texts(b, chunks))


def stated_svx(b):
    chunks = riff_chunks(b, ">")
    bodies = {id: b[at:at + many] for id, at, many in reversed(chunks)}
    rest = [(id, many) for id, _, many in chunks if id not in (b"VHDR", b"CHAN", b"BODY", *FILLERS)]
    return Stated("svx", "pcm_s8", 1, struct.unpack_from(">H", bodies[b"VHDR"], 12)[0], bodies[b"BODY"], rest)


def stated_w64(b):
    at, bodies = 40, {}
    while at + 24 <= len(b) and w64_id(b"data") not in bodies:
        many = max(struct.unpack_from("<Q", b, at + 16)[0], 24)
        bodies.setdefault(b[at:at + 16], b[at + 24:at + many])
        at += many + -many % 8
    return Stated("w64", *codec_of(bodies[w64_id(b"fmt ")]), bodies[w64_id(b"data")])


def stated_au(b):
    order, kind = (">", "au") if b[:4] == b".snd" else ("<", "dns")
    offset, many, encoding, rate, channels = struct.unpack_from(f"{order}5I", b, 4)
    tail = "be" if kind == "au" else "le"
    codec = {1: "ulaw", 2: "pcm_s8", 27: "alaw"}.get(encoding) or f"pcm_{8 * encoding - 8}_{tail}"
    return Stated(kind, codec, channels, rate, b[offset:] if many == 0xFFFFFFFF else b[offset:offset + many])


def stated_voc(b):
    at, extended = struct.unpack_from("<H", b, 20)[0], None
    while True:
        type, many = b[at], int.from_bytes(b[at + 1:at + 4], "little")
        body = b[at + 4:at + 4 + many]
        if type == 9:
            rate, _, channels, number = struct.unpack_from("<IBBH", body)
            return Stated("voc", {0: "pcm_u8", 4: "pcm_16_le", 6: "alaw", 7: "ulaw"}[number], channels, rate, body[12:])
        if type == 1:
            channels = 1 + extended[3] if extended else 1
            rate = 256000000 // (channels * (65536 - struct.unpack_from("<H", extended)[0])) if extended else 1000000 // (256 - body[0])
            return Stated("voc", "pcm_u8", channels, rate, body[2:])
        extended = body if type == 8 else extended
        at += 4 + many


def stated_sphere(b):
    lines = b[16:1024].split(b"\nend_head\n")[0].decode("latin-1").split("\n")
    said = {words[0]: words[2] for words in (line.split(" ", 2) for line in lines) if len(words) == 3}
    coding = {"mu-law": "ulaw"}.get(said.get("sample_coding", "pcm"), said.get("sample_coding", "pcm"))
    codec = coding if coding in LAWS else "pcm_16_le" if said["sample_byte_format"] == "01" else "pcm_16_be"
    channels = int(said["channel_count"])
    return Stated("sphere", codec, channels, int(said["sample_rate"]), b[1024:1024 + int(said["sample_count"]) * channels * size(codec)])


def stated(b):
    """What the bytes of a whole file say of it."""
    by_magic = {b"RIFF": stated_riff, b"RF64": stated_riff, b"riff": stated_w64, b".snd": stated_au, b"dns.": stated_au, b"Crea": stated_voc,
                b"FORM": stated_svx, b"NIST": stated_sphere}
    return by_magic[b[:4]](b)
