#!/usr/bin/env -S python3 -B
"""Words that are said in more than one place, compared: the commands, the forms of their words, their options, the suffixes, kinds and
codecs that `--help`, the manual page, the completions and the code know; which codecs each kind holds, the words of scripts and the
keys of texts, as the manual page and the program have them; and the refusals of the code and of docs/refusals.md. What the program
itself takes is tried. Needs Python 3 and bash; the code is read where it lies, all crates but those of tests."""
import glob
import os
import re

from lib import kinds
from lib.head import TOP, Cases, finished, start

program = start()
cases = Cases("words")
SCRIPTED = ("script", "--auto", "a.wav")


def text(name):
    with open(f"{TOP}/{name}", encoding="utf-8") as file:
        return file.read()


def same(what, **told):
    """A case: that all places know the same words, and some."""
    whole = set().union(*told.values())
    wrong = [f"{name} lacks {' '.join(sorted(whole - {*words}))}" for name, words in told.items() if {*words} != whole]
    cases.case(what, wrong + ["there are none"] * (not whole))


def said(words, script=b""):
    """The lines that the program prints, on both streams."""
    done = finished([program, *words], script)
    return (done.stdout + done.stderr).decode("latin-1").splitlines() if done else ["no end"]


def code():
    """The code of the crates, but for those that have tests."""
    found = {}
    for folder in glob.glob(f"{TOP}/crates/*/src"):
        files = {name: text(os.path.relpath(name, TOP)) for name in glob.glob(f"{folder}/**/*.rt", recursive=True)}
        if not any("#[test]" in it for it in files.values()):
            found |= files
    # (what stands in a comment is no code)
    return {name: re.sub(r"(?m)^\s*//.*$", "", it) for name, it in found.items()}


CODE = code()


def literals(pattern):
    """What texts of the code, each whole, are like."""
    return {it for file in CODE.values() for it in re.findall(rf'"({pattern})"', file)}


# ---- what the places say
HELP = finished([program, "--help"]).stdout.decode()
PAGE = text("docs/snd.1").replace("\\-", "-").replace("\\ ", " ")
BASH, ZSH = text("docs/completion/snd.bash"), text("docs/completion/_snd")


def helped(title):
    """The words of a list of the help, which begins so."""
    found = re.search(rf"(?m)^{title}: (.*(?:\n +.*)*)", HELP)
    return {re.sub(r"=[A-Z]+$", "=", it) for it in found[1].split()} if found else set()


def section(title, kind="SS"):
    """A section of the manual page."""
    found = re.search(rf"(?ms)^\.{kind} {re.escape(title)}\n(.*?)(?=^\.S[SH] |\Z)", PAGE)
    return found[1] if found else ""


def bold(part):
    """The words of a part of the manual page that stand in bold letters by themselves, or begin a line of an option."""
    found = set()
    for line in re.findall(r"(?m)^\.B[RI]? (.*)$", part):
        line = line.replace("\\fR", "").replace("\\fB", "")
        found |= {it.strip('",.') for it in line.split()}
    return {it for it in found if re.match("[A-Za-z0-9-]", it)}


def entries(part):
    """The first lines of the entries of a part of the manual page."""
    return re.findall(r"(?m)^\.TP\n\.B[RI]* (.*)$", part)


def bash_words(case):
    found = re.search(rf'(?m)^ *{re.escape(case)}\) words="([^"]*)"', BASH)
    return {*found[1].split()} if found else set()


# ---- commands, and the forms of their words
forms = {re.sub(r" {2,}.*|[][]", "", it) for it in re.findall(r"(?m)^  snd (\S.*)$", HELP)} - {"COMMAND --help"}
titles = {re.sub(r"[][]", "", it).replace(" ..", "..") for it in re.findall(r"(?m)^\.SS snd (.*)$", PAGE)}
same("the forms of the words", help=forms, page=titles)
in_zsh = {*re.findall(r"(?m)^ +'([a-z-]+):", ZSH), *re.findall(r"'\(- \*\)(--\w+)\[", ZSH)}
in_code = {it for file in CODE.values() for it in re.findall(r'\bcommand == "(\S+?)"', file)}
same("the commands", help={it.split()[0] for it in forms}, page={it.split()[0] for it in titles}, bash=bash_words("1:*"), zsh=in_zsh, code=in_code)

# ---- options
convert = section("snd convert [OPTION ..] IN OUT")
options = {it for line in entries(convert) for it in re.findall(r"-[a-z0-9=-]+", line)}
codecs = {*re.search(r"(?s)codecs=\((.*?)\)", ZSH)[1].split()}
more = {f"{name}={value}" if values else f"{name}=" for name, values in re.findall(r"'(-[a-z-]+)=-\[[^]]*\]:\w+:(?:\(([a-z ]*)\))?'", ZSH) for value in (values.split() or [""])}
in_bash = bash_words("*:convert:-*") - {"-endian="} | {f"-endian={it}" for it in bash_words("*:convert:-endian=*")}
in_code = {it for it in literals(r"-[a-z][a-z0-9=-]*")} - {"-o"}
same("the options of convert", help=helped("Options of convert"), page=options, bash=in_bash, zsh=codecs | more, code=in_code)
settings = section("snd metadata-set OPTION TEXT .. IN OUT")
found = re.findall(r"(?ms)^\.TP\n\.BI (--\w+-) KEY\n(.*?)(?=^\.TP|^\.PP)", settings)
in_page = {start + key for start, part in found for key in bold(part) if re.fullmatch(r"[a-z-]+", key)}
in_zsh = {*re.search(r"(?s)texts=\((.*?)\)", ZSH)[1].split()}
in_code = literals(r"--(?:str|bext)-[a-z-]+")
same("the options of metadata-set", help=helped("Options of metadata-set"), page=in_page, bash=bash_words("*:metadata-set:-*"), zsh=in_zsh, code=in_code)
in_zsh = {*re.findall(r"'(--auto)\[", ZSH), *re.findall(r"'(-o)\[", ZSH)}
in_help = {it for form in forms for it in form.split()[1:] if it.startswith("-")}
in_page = {it for form in titles for it in form.split()[1:] if it.startswith("-")}
same("the options of script and interleave", help=in_help, page=in_page, bash=bash_words("2:script:*") | bash_words("*:interleave:-*"), zsh=in_zsh, code=literals("--auto|-o"))

# ---- suffixes, kinds and codecs
with open("a.wav", "wb") as file:
    file.write(kinds.whole_file("wave", "pcm_u8", 1, 8000, [1, 2, 3]))
in_page = bold(re.search(r"(?s)behind its last dot:\n(.*?)Capital letters", convert)[1])
suffixes = helped("Suffixes of OUT")
taken = {it for it in suffixes | in_page | {"WAV", "wave", "sphere", "aiff", "flac", "raw"} if said(["convert", "a.wav", f"x.{it}"]) != [f"snd: x.{it}: error 54 UnknownSuffix"]}
same("the suffixes", help=suffixes, page=in_page, program=taken)
part = section("KINDS AND CODECS", "SH")
holds = {kind: {*re.findall(r"\b(?:pcm_\w+|ulaw|alaw|ima|ms)\b", told)} for kind, told in re.findall(r"(?ms)^\.TP\n\.B (\w+)\n(.*?)(?=^\.TP|^\.PP)", part)}
# two are told by another: the same without ADPCM, and the same
holds["rf64"], holds["w64"] = holds.get("wave", set()) - {"ima", "ms"}, holds.get("wave", set())
named = bold(part.split(".TP")[0])
in_code = {it for name, file in CODE.items() for it in re.findall(r'\bKind::\w+ => "(\w+)"', file)}
same("the kinds", help=helped("Kinds"), page=holds, checks=kinds.HOLDS, code=in_code)
in_code = {it for file in CODE.values() for it in re.findall(r'\bCodec::\w+(?:\(Order::\w+\)| \{ \.\. \})? => "(\w+)"', file)}
same("the codecs", help=helped("Codecs"), page=named, lists=set().union(*holds.values()), checks={*kinds.LINEAR, *kinds.LAWS, "ima", "ms"}, code=in_code)
for kind in sorted(holds):
    tried = {codec: said(["script"], f"create {kind} {codec} 1 8000 x\n".encode()) for codec in sorted(named)}
    wrong = [f"{codec}: {lines}" for codec, lines in tried.items() if lines != ([f"ok 0 1 8000 {kind} {codec}"] if codec in holds[kind] else ["error 18 BadPair"])]
    cases.case(f"the codecs of {kind}, as the page has them", wrong + ["none are told"] * (not tried))

# ---- words of scripts
scripts = section("SCRIPTS", "SH")
commands = [re.sub(r'\\f[RB]|"', "", it) for line in entries(scripts) for it in re.split(r",\s+", re.sub(r"\\f[RB]", "", line))]
verbs = {it.split()[0] for it in commands}
in_code = {it for file in CODE.values() for it in re.findall(r'\bverb == b"(\w+)"', file)}


def takes(front, rests):
    """Whether the program takes a line that begins so, with one of these behind it."""
    return any(said(["script"], f"{front}{rest}\n".encode()) != ["error 40 BadCommand"] for rest in rests)


taken = {it for it in verbs | in_code | {"quit", "help", "copy"} if takes(it, ("", " r a.wav", " wave pcm_u8 1 8000 x", " r 1", " 1", " on", " string title A", " chunks", " peak"))}
same("the words of scripts", page=verbs, code=in_code, program=taken)
seconds = {" ".join(it.split()[:2]) for it in commands if it.split()[0] in ("open", "seek", "set", "get", "auto")}
taken = {it for it in seconds | {"get string", "set cues", "auto 1", "open w"} if takes(it, ("", " a.wav", " 1", " abcd 01", " title A", " originator A", " abcd"))}
same("their second words", page=seconds, program=taken)


def keys(title):
    """The keys of an entry of the page."""
    entry = re.search(rf'(?ms)^\.TP\n\.BI "{title} " \S+(?: \S+)*\n(.*?)(?=^\.TP)', scripts)[1]
    return {it for it in bold(re.search(r"(?s)\n(?:\.I K\w+)\nis\n(.*)", "\n" + entry)[1]) if re.fullmatch(r"[a-z-]+", it)} - {"ok"}


OTHERS = {"name", "year", "isrc", "peaks", "length"}
for what, line, front in (("string", "set string {} 12", "create wave pcm_u8 1 8000 x"), ("bext", "set bext {} 12", "create wave pcm_u8 1 8000 x"), ("tap", "tap {}", "open r a.wav")):
    in_page = keys("tap" if what == "tap" else f"set {what}")
    taken = {it for it in in_page | OTHERS if said(["script"], f"{front}\n{line.format(it)}\n".encode())[1:] == ["ok"]}
    same(f"the keys of {line.split(' {')[0]}", page=in_page, program=taken)

# ---- refusals
rows = {f"{number} {name}": rest for number, name, rest in re.findall(r"(?m)^\| (\d+) \| (\w+) \|(.*)$", text("docs/refusals.md"))}
in_code = {f"{number} {name}" for path, file in CODE.items() if "refusal" in path for name, number in re.findall(r"::(\w+) => (\d+),", file)}
# those of a library's call alone have no number in the code
same("the refusals", documents={it for it, rest in rows.items() if "The library answers it" not in rest}, code=in_code)
cases.end(8 + 8 + 2 + 3 + 1)
