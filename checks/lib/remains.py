"""What is left of a sound in bytes whose head is missing or damaged, as the check of `salvage` knows it beside the program: the first
format that reads, and all that stands behind the first data behind it. The chunks are those of RIFF ("Multimedia Programming
Interface and Data Specifications 1.0", 1991), the bodies of formats those of Microsoft's WAVEFORMATEX and WAVEFORMATEXTENSIBLE."""
import struct

from lib import kinds

SUBFORMAT = bytes.fromhex("000000001000800000aa00389b71")


def stated(body):
    """The codec, the channels and the rate of a body that is no ADPCM, of at least 16 bytes; None, where it does not read."""
    tag, channels, rate, _, align, bits = struct.unpack_from("<HHIIHH", body)
    if tag == 0xFFFE:
        if len(body) < 40 or body[26:40] != SUBFORMAT:
            return None
        tag = struct.unpack_from("<H", body, 24)[0]
    codec = {1: "pcm_u8" if bits == 8 else f"pcm_{bits}_le", 6: "alaw", 7: "ulaw"}.get(tag)
    if codec not in kinds.HOLDS["wave"] or not 1 <= channels <= 256 or rate == 0 or align != channels * kinds.size(codec):
        return None
    return codec, channels, rate


def format_at(b, at):
    """What a format states whose mark stands at a place, and the place behind its body; None, where it is no good one."""
    if at + 24 > len(b):
        return None
    size = struct.unpack_from("<I", b, at + 4)[0]
    if size < 16 or at + 8 + size > len(b):
        return None
    said = stated(b[at + 8:at + 8 + min(size, 64)])
    return said and (*said, at + 8 + size)


def places(b, mark, at=0):
    """Each place at which a mark stands, from one on."""
    while (at := b.find(mark, at)) >= 0:
        yield at
        at += 1


def sought(b):
    """The codec, the channels, the rate and the bytes of the sound; or the refusal, as it is printed."""
    found = next((it for at in places(b, b"fmt ") if (it := format_at(b, at))), None)
    if not found:
        return "6 NoFormat"
    *said, behind = found
    at = b.find(b"data", behind)
    return (*said, b[at + 8:]) if 0 <= at <= len(b) - 8 else "7 NoData"


def salvaged(b):
    """How many frames there are, and the WAVE file that is made of them; or the refusal."""
    found = sought(b)
    if isinstance(found, str):
        return found
    codec, channels, rate, data = found
    align = channels * kinds.size(codec)
    data = data[:len(data) // align * align]
    # a law keeps of a byte the number that it stands for
    if codec in kinds.LAWS:
        data = data.translate(kinds.coded(codec, kinds.numbers_of(codec, bytes(range(256)))))
    return len(data) // align, kinds.riff("wave", codec, channels, rate, data)
