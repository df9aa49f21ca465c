"""What a power cut may leave of a file, by the system's calls of a run of the program under strace: the file's length and each
sector of 512 bytes as last synced or as any write or cut since then meant it. All such mixes are tried where they are few, and
else random ones."""
import re
import subprocess

from lib.head import SECONDS

SECTOR, MOST = 512, 64

CALLS = ("open,openat,creat,close,dup,dup2,dup3,write,writev,pwrite64,pwritev,pwritev2,truncate,ftruncate,fallocate,fsync,fdatasync,"
         "rename,renameat,renameat2,unlink,unlinkat")


def text_of(argument):
    return bytes.fromhex(argument.replace("\\x", "").strip('"'))


def events_of(trace, name, made=False):
    """What the program did to a file and said on standard output, in order. Calls that are not known are events of their own, and so
    is one that makes the file, unless it is to be made."""
    found, held = [], set()
    for line in trace:
        call = re.match(r"(?:\d+ +)?(\w+)\((.*)\) += (-?\d+)", line)
        if not call:
            continue
        what, words, result = call[1], call[2].split(", "), int(call[3])
        number = int(words[0]) if words[0].isdigit() else None
        if what == "openat" and result >= 0:
            held.discard(result)
            if text_of(words[1]) == name:
                held.add(result)
                if re.search("CREAT|TRUNC|APPEND", words[2]):
                    found.append(("cut", 0) if made else ("unknown", line))
        elif what == "write" and number == 1:
            found.append(("say", text_of(words[1])[:result]))
        elif number in held and what == "close":
            held.discard(number)
        elif number in held and what == "pwrite64":
            found.append(("put", int(words[3]), text_of(words[1])[:max(result, 0)]))
        elif number in held and what == "ftruncate" and result == 0:
            found.append(("cut", int(words[1])))
        elif number in held and what in ("fsync", "fdatasync") and result == 0:
            found.append(("sync",))
        elif number in held or any(it.startswith('"') and text_of(it) == name for it in words if what != "execve"):
            found.append(("unknown", line))
    return found


def after(contents, event):
    if event[0] == "cut":
        return contents[:event[1]].ljust(event[1], b"\0")
    at, new = event[1:]
    return contents[:at].ljust(at, b"\0") + new + contents[at + len(new):] if new else contents


def sectors(contents, size):
    full = contents[:size].ljust(size, b"\0")
    return [full[i:i + SECTOR] for i in range(0, size, SECTOR)]


def choices(y, z):
    """For each length that a mix of two lists may have, its sectors: of each the one that both have, or the two."""
    return [[{a, b} for a, b in zip(sectors(y, size), sectors(z, size))] for size in sorted({len(y), len(z)})]


def count(y, z):
    total = 0
    for each in choices(y, z):
        ways = 1
        for it in each:
            ways *= len(it)
        total += ways
    return total


def mixes(y, z):
    for each in choices(y, z):
        found = [b""]
        for it in each:
            found = [front + sector for front in found for sector in it]
        yield from found


def random_mix(dice, y, z, share):
    size = len(dice.choice([y, z]))
    return b"".join(b if dice.random() < share else a for a, b in zip(sectors(y, size), sectors(z, size)))


def images(dice, held):
    """The images after a sync, whose contents come first, and writes and cuts, whose contents follow: all where they are few."""
    found = {held[0]}
    for z in held[1:]:
        if sum(count(y, z) for y in found) > MOST:
            break
        found = {x for y in found for x in mixes(y, z)}
    else:
        return found
    found = {held[0], held[-1]}
    for i in range(MOST - 2):
        share, x = (.1, .5, .9)[i % 3], held[0]
        for z in held[1:]:
            x = random_mix(dice, x, z, share)
        found.add(x)
    return found


def moments(dice, first, events, replies):
    """What a cut may leave after each event, with the number of replies that are out by then; and the contents at the end."""
    held, said, out, ends = [first], 0, 0, [0]
    for reply in replies:
        ends.append(ends[-1] + len(reply))
    found = [(0, {first})]
    for event in events:
        if event[0] == "say":
            said += len(event[1])
            while out < len(replies) and said >= ends[out + 1]:
                out += 1
        elif event[0] == "sync":
            held = [held[-1]]
        elif event[0] in ("put", "cut"):
            held.append(after(held[-1], event))
        found.append((out, images(dice, held)))
    return found, held


def traced(program, words, lines, name, made=False):
    """A script run under strace, and what it did to a file."""
    done = subprocess.run(["strace", "-f", "-o", "trace.txt", "-e", f"trace={CALLS}", "-xx", "-s", "1000000", program, *words],
                          input="".join(f"{line}\n" for line in lines).encode(), capture_output=True, timeout=10 * SECONDS)
    with open("trace.txt") as trace:
        return done, events_of(trace, name, made)


def read_by_program(program, found, most):
    """What the program says of images and reads of them, all in one script: the first reply and the frames of each."""
    if not found:
        return {}
    reads = most // 1024 + 1
    with open("judge.txt", "w") as file:
        for i, image in enumerate(found):
            with open(f"i{i}", "wb") as out:
                out.write(image)
            file.write(f"open r i{i}\n" + "read 1024\n" * reads + "close\n")
    with open("judge.txt", "rb") as script:
        lines = iter(subprocess.run([program, "script"], stdin=script, stdout=subprocess.PIPE, timeout=10 * SECONDS).stdout.decode("latin-1").split("\n"))
    answers = {}
    for image in found:
        opened, frames = next(lines, ""), []
        for _ in range(reads):
            reply = next(lines, "")
            if reply.startswith("ok "):
                frames += [next(lines, "") for _ in range(int(reply[3:]))]
        closed = next(lines, "")
        answers[image] = (opened, frames, closed)
    return answers
