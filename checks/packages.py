#!/usr/bin/env -S python3 -B
"""The scripts install and dist, into folders of their own: what they print and put there, and take away again; both packages, listed,
with their checksums, made twice; the files of each put into an empty folder and run; what man says of the manual page, and the
completions, which know the commands of the page. Needs Python 3; what man, zsh and dpkg-deb have to do with is skipped where they
are missing, with a line for each."""
import gzip
import hashlib
import io
import os
import re
import shutil
import subprocess
import tarfile
import wave

from lib.head import TOP, Cases, ended, has, start

start()
cases = Cases("packages")
here = os.getcwd()
skipped = 0
INSTALLED = {
    "bin/snd": (0o755, "crates/snd/out/snd"),
    "share/man/man1/snd.1": (0o644, "docs/snd.1"),
    "share/doc/snd/refusals.md": (0o644, "docs/refusals.md"),
    "share/doc/snd/power_cuts.md": (0o644, "docs/power_cuts.md"),
    "share/bash-completion/completions/snd": (0o644, "docs/completion/snd.bash"),
    "share/zsh/site-functions/_snd": (0o644, "docs/completion/_snd"),
}
with open(f"{TOP}/crates.txt", encoding="utf-8") as file:
    for name in re.findall(r"(?m)^(\w+) staticlib:", file.read()):
        if os.path.exists(f"{TOP}/crates/{name}/out/lib{name}.a"):
            INSTALLED[f"lib/lib{name}.a"] = (0o644, f"crates/{name}/out/lib{name}.a")
for name in sorted(os.listdir(f"{TOP}/include")) if os.path.isdir(f"{TOP}/include") else []:
    INSTALLED[f"include/{name}"] = (0o644, f"include/{name}")
USAGE = "usage: ./install [--uninstall] [PREFIX]\n"


def contents(path):
    with open(path, "rb") as file:
        return file.read()


def done(words, **more):
    return subprocess.run(words, capture_output=True, text=True, **more)


def hints(prefix, environment):
    """What install says at its end of a prefix."""
    path = f"to find the program, add to your shell's start file: PATH=\"{prefix}/bin:$PATH\"\n"
    known = f"{prefix}/bin" in environment["PATH"].split(":")
    return "" if environment.get("DESTDIR") else path * (not known) + f"for zsh, add to ~/.zshrc, before compinit: fpath+=({prefix}/share/zsh/site-functions)\n"


def files_below(folder):
    """The paths of all files below a folder, and their modes."""
    found = {}
    for at, _, names in os.walk(folder):
        for it in names:
            path = os.path.join(at, it)
            found[os.path.relpath(path, folder)] = os.stat(path).st_mode & 0o777
    return found


def holds(folder, renamed=None):
    """The faults of the files below a folder, which are those that are installed, some of them under other names."""
    renamed = renamed or {}
    wanted = {renamed.get(it, it): how for it, how in INSTALLED.items()}
    found = files_below(folder)
    faults = [f"{it} is missing" for it in sorted({*wanted} - {*found})] + [f"{it} is there, too" for it in sorted({*found} - {*wanted})]
    for name in sorted({*wanted} & {*found}):
        mode, source = wanted[name]
        held = contents(f"{folder}/{name}")
        if (gzip.decompress(held) if name.endswith(".gz") else held) != contents(f"{TOP}/{source}"):
            faults.append(f"{name} is not {source}")
        if found[name] != mode:
            faults.append(f"{name} has the mode {found[name]:o}")
    return faults


def puts(words, prefix, **more):
    """The faults of an installation under a prefix, and below DESTDIR where that is set."""
    environment = {**os.environ, **more}
    under = environment.get("DESTDIR", "") + prefix
    said = "".join(f"installed {under}/{it}\n" for it in INSTALLED) + hints(prefix, environment)
    return ended(done([f"{TOP}/install", *words], env=environment), said, "", 0) + holds(under)


def takes_away(words, prefix, **more):
    """The faults of the removal of what was installed."""
    under = more.get("DESTDIR", "") + prefix
    said = "".join(f"removed {under}/{it}\n" for it in INSTALLED)
    left = files_below(under)
    faults = ended(done([f"{TOP}/install", "--uninstall", *words], env={**os.environ, **more}), said, "", 0)
    return faults + [f"{it} is there still" for it in files_below(under) if it in INSTALLED] + ["nothing was there"] * (not left)


def tried_with(tool, name, words, **more):
    """Counts a case in which a tool says nothing, or skips it where the tool is missing."""
    global skipped
    if has("packages", tool, name):
        got = done(words, **more)
        cases.case(name, ended(got, got.stdout, "", 0))
    else:
        skipped += 1


def described():
    """What the program says of an example, by the wave module."""
    with wave.open(f"{TOP}/examples/chord.wav") as sound:
        channels, rate, frames = sound.getnchannels(), sound.getframerate(), sound.getnframes()
    return (f"name chord.wav\nkind wave\ncodec pcm_16_le\nchannels {channels}\nrate {rate}\nframes {frames}\n"
            f"duration 00:00:00.{frames * 1000 // rate:03}\n")


def runs(program):
    """The faults of an installed program: what it says of an example in an empty folder, and its version."""
    os.makedirs(f"{here}/empty", exist_ok=True)
    shutil.copy(f"{TOP}/examples/chord.wav", f"{here}/empty/chord.wav")
    faults = ended(done([program, "info", "chord.wav"], cwd=f"{here}/empty"), described(), "", 0)
    return faults + ended(done([program, "convert", "chord.wav", "chord.au"], cwd=f"{here}/empty"), "ok 5512\n", "", 0)


def members(package):
    """The members of an ar archive, which a Debian package is, by their names."""
    data, at, found = contents(package), 8, {}
    assert data[:8] == b"!<arch>\n"
    while at < len(data):
        name, size = data[at:at + 16].decode().strip().rstrip("/"), int(data[at + 48:at + 58])
        found[name] = data[at + 60:at + 60 + size]
        at += 60 + size + size % 2
    return found


def unpack(archive, into):
    """Puts the files of a tar archive into a folder, and gives the owners that it names."""
    with tarfile.open(fileobj=io.BytesIO(archive)) as tar:
        tar.extractall(into)
        return {(it.uid, it.gid) for it in tar.getmembers()}


prefix = f"{here}/prefix"
cases.case("into a folder", puts([prefix], prefix))
cases.case("once more, and with a name from here", puts(["prefix"], "prefix"))
cases.case("into the home folder", puts([], f"{here}/home/.local", HOME=f"{here}/home"))
cases.case("below DESTDIR", puts(["/usr"], "/usr", DESTDIR=f"{here}/stage"))
cases.case("the installed program", runs(f"{prefix}/bin/snd"))
cases.case("removed below DESTDIR", takes_away(["/usr"], "/usr", DESTDIR=f"{here}/stage"))
os.makedirs(f"{here}/home/.local/share/doc/other")
open(f"{here}/home/.local/bin/other", "w").close()
cases.case("removed from the home folder", takes_away([], f"{here}/home/.local", HOME=f"{here}/home"))
left = files_below(f"{here}/home/.local")
cases.case("what others installed stays", [f"{left}"] * ([*left] != ["bin/other"]) + ["share/doc/snd is there"] * os.path.exists(f"{here}/home/.local/share/doc/snd"))
cases.case("nothing is there to be removed", ended(done([f"{TOP}/install", "--uninstall", f"{here}/none"]), "", "", 0))
for words in ([""], ["-x"], ["one", "two"], ["--uninstall", "-x"]):
    cases.case(f"bad words: {words}", ended(done([f"{TOP}/install", *words]), "", USAGE, 2))

version = done([f"{prefix}/bin/snd", "--version"]).stdout.split()[1]
packed = f"snd-{version}-linux-{os.uname().machine}"
deb = has("packages", "dpkg-deb", "the Debian package")
made = done([f"{TOP}/dist", f"{here}/made"])
names = sorted(os.listdir(f"{here}/made"))
debs = [it for it in names if it.endswith(".deb")]
told = "".join(f"made {here}/made/{it}\n" for it in [f"{packed}.tar.gz", *debs, "SHA256SUMS"])
cases.case("dist", ended(made, told, "" if deb else "dist: no .deb: dpkg-deb is missing\n", 0) + [f"{names}"] * (len(names) != 2 + deb or len(debs) != deb))
sums = "".join(f"{hashlib.sha256(contents(f'{here}/made/{it}')).hexdigest()}  {it}\n" for it in [f"{packed}.tar.gz", *debs])
cases.case("the checksums", [f"{sums}"] * (contents(f"{here}/made/SHA256SUMS").decode() != sums))
done([f"{TOP}/dist", f"{here}/again"])
cases.case("the same packages once more", [f"{it} differs" for it in names if contents(f"{here}/made/{it}") != contents(f"{here}/again/{it}")])
owners = unpack(contents(f"{here}/made/{packed}.tar.gz"), f"{here}/tar")
cases.case("the tar archive, listed", holds(f"{here}/tar/{packed}") + [f"owners {owners}"] * (owners != {(0, 0)}))
cases.case("the program of the tar archive", runs(f"{here}/tar/{packed}/bin/snd"))
if deb:
    parts = members(f"{here}/made/{debs[0]}")
    owners = unpack(parts["data.tar.gz"], f"{here}/deb")
    unpack(parts["control.tar.gz"], f"{here}/control")
    control = dict(re.findall(r"(?m)^(\w+): (.*)$", contents(f"{here}/control/control").decode()))
    renamed = {"share/man/man1/snd.1": "share/man/man1/snd.1.gz", "share/zsh/site-functions/_snd": "share/zsh/vendor-completions/_snd"}
    cases.case("the Debian package, listed", holds(f"{here}/deb/usr", renamed) + [f"owners {owners}"] * (owners != {(0, 0)}))
    wrong = [f"{control}"] * ((control["Package"], control["Version"]) != ("snd", version) or not {"Architecture", "Depends", "Maintainer", "Description"} <= {*control})
    cases.case("what the Debian package says of itself", wrong)
    cases.case("the program of the Debian package", runs(f"{here}/deb/usr/bin/snd"))
else:
    skipped += 3
cases.case("bad words of dist", ended(done([f"{TOP}/dist", "-x"]), "", "usage: ./dist [FOLDER]\n", 2))

page = contents(f"{prefix}/share/man/man1/snd.1").decode()
plain = {**os.environ, "LC_ALL": "C.UTF-8", "MANROFFSEQ": "", "MANPATH": f"{prefix}/share/man"}
tried_with("man", "the warnings of man", ["man", "--warnings", "-l", f"{prefix}/share/man/man1/snd.1"], env=plain)
tried_with("man", "man finds the page", ["man", "-w", "snd"], env=plain)
commands = {it.replace("\\", "") for it in re.findall(r"(?m)^\.SS snd (\S+)", page)}
bash = f"source {prefix}/share/bash-completion/completions/snd; COMP_LINE='snd ' COMP_POINT=4 COMP_WORDS=(snd '') COMP_CWORD=1; _snd; echo \"${{COMPREPLY[@]}}\""
got = done(["bash", "-uc", bash])
cases.case("the commands in bash", ended(got, got.stdout, "", 0) + [f"it knows {got.stdout!r}"] * ({*got.stdout.split()} != commands or not commands))
zsh = contents(f"{prefix}/share/zsh/site-functions/_snd").decode()
named = {*re.findall(r"(?m)^ +'([a-z-]+):", zsh), *re.findall(r"'\(- \*\)(--\w+)\[", zsh)}
cases.case("the commands in zsh", [f"it knows {named}"] * (named != commands))
tried_with("zsh", "the completion for zsh", ["zsh", "-n", f"{prefix}/share/zsh/site-functions/_snd"])
cases.end(27 - skipped, f", {skipped} skipped" if skipped else "")
