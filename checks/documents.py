#!/usr/bin/env -S python3 -B
"""The documents against the program and the repository. Every command block of README.md, CONTRIBUTING.md, CHANGELOG.md, docs/*.md
and the manual page is run as written, page by page, each in an empty folder, and what it prints is compared; README.md's folder has
what its commands name of the repository. Of the pages, there is no block that is neither run nor a piece of a named file; README.md
has at most 150 lines; each file, and each line with a clause, that they name is there; the refusals are those of the crates, and
those of the manual page word for word; --help and COMMAND --help name the same forms and options, and those of the manual page; and
examples/make.py makes examples/. How many checks and wrong bodies there are is as docs/architecture.md says, and how long the first
build takes is said in one way; the wrong bodies that docs/DECISIONS.md names are there, and each says in its first line which clauses
of which public function refuse it, and that function has these. Needs Python 3 and bash."""
import glob
import os
import re
import subprocess
import sys
import textwrap

from lib.head import TOP, Cases, finished, first_difference, start

program = start()
cases = Cases("documents")
HERE = os.getcwd()
PAGES = ["README.md", "CONTRIBUTING.md", "CHANGELOG.md", *(f"docs/{it}" for it in sorted(os.listdir(f"{TOP}/docs")) if it.endswith(".md"))]
MOST_LINES = 150


def text(name):
    with open(os.path.join(TOP, name), encoding="utf-8") as file:
        return file.read()


def fences(page):
    """The fenced blocks of a page: the word behind the fence, what stands in it, and all that stands before it."""
    return [(it[1], it[2], page[:it.start()]) for it in re.finditer(r"(?ms)^```(\w*)\n(.*?)^```$", page)]


def commands(block):
    """The commands of a block, each with the lines that it is to print."""
    found = []
    for line in block.splitlines(keepends=True):
        if line.startswith("$ "):
            found.append([line[2:], ""])
        elif found:
            found[-1][1] += line
        else:
            found.append(["false # a line before the first command", line])
    return found


def examples(page):
    """The examples of the manual page as blocks."""
    plain = ((r"\(aq", "'"), (r"\-", "-"), (r"\e", "\\"), (r"\&", ""))
    for block in re.findall(r"(?ms)^\.EX\n(.*?)^\.EE$", page):
        for roff, stands_for in plain:
            block = block.replace(roff, stands_for)
        yield block


def in_empty_folder(name, links=()):
    """Makes an empty folder for a page, with links to files of the repository, and the environment in which `snd` is the program."""
    folder = f"{HERE}/{name.replace('/', '_')}"
    for it in (folder, f"{folder}.bin", f"{folder}.home"):
        os.mkdir(it)
    os.symlink(program, f"{folder}.bin/snd")
    for it in links:
        os.symlink(program if it == "snd" else f"{TOP}/{it}", f"{folder}/{it}")
    plain = {name: word for name, word in os.environ.items() if not name.startswith(("LC_", "LANG"))}
    return folder, {**plain, "LC_ALL": "C.UTF-8", "HOME": f"{folder}.home", "PATH": f"{folder}.bin:{os.environ['PATH']}"}


def try_page(name, blocks, links=()):
    """Runs the commands of a page in their order, and counts a case for each."""
    folder, environment = in_empty_folder(name, links)
    count = 0
    for command, printed in (it for block in blocks for it in commands(block)):
        try:
            done = subprocess.run(["bash", "-c", command], cwd=folder, env=environment, stdin=subprocess.DEVNULL, stdout=subprocess.PIPE,
                                  stderr=subprocess.STDOUT, timeout=60)
            wrong = first_difference("it prints", done.stdout.decode(errors="replace"), printed)
        except subprocess.TimeoutExpired:
            wrong = ["no end within 60 seconds"]
        cases.case(f"{name}: {command.strip()}", wrong)
        count += 1
    return count


def stands_in(source, block):
    """Whether a block is lines of the source one after the other, but for how far all of them are indented."""
    lines, wanted = source.split("\n"), block.rstrip("\n")
    count = wanted.count("\n") + 1
    return any(textwrap.dedent("\n".join(lines[at:at + count])) == wanted for at in range(len(lines)))


def not_tried(page):
    """The blocks of a page that are neither commands nor a piece of the file that was named last before them."""
    faults = [f"an indented block: {it}" for it in re.findall(r"(?m)^(?:    .*\n)+", re.sub(r"(?ms)^```.*?^```$", "", page)) if not it.lstrip().startswith(("-", "*"))]
    for word, block, before in fences(page):
        if word == "console":
            continue
        named = re.findall(r"`(crates/[\w/]+\.rt)`", before)
        if word != "rust" or not named or not stands_in(text(named[-1]), block):
            faults.append(f"no commands, and no piece of {named[-1] if named else 'a file'}: {block}")
    return faults


def missing(name, page):
    """What a page names that is not there: files of the repository, and lines with a clause."""
    named = re.findall(r"`((?:crates|checks|bench|docs|examples|misuse|tools|\.ci)/[\w./-]*)`", page)
    faults = [it for it in named if "NAME" not in it and not it.endswith("/out") and not os.path.exists(os.path.join(TOP, it))]
    for words, to in re.findall(r"\[([^\]]*)\]\((?!https?:)([^)#]*(?:#L\d+)?)\)", page):
        path, _, line = to.partition("#L")
        path = os.path.normpath(os.path.join(TOP, os.path.dirname(name), path))
        if not os.path.exists(path):
            faults.append(to)
        elif line:
            clause = re.match(r"`(\w+)`", words)
            with open(path, encoding="utf-8") as file:
                found = (file.read().split("\n") + [""] * int(line))[int(line) - 1]
            if not clause or f"ensures {clause[1]} " not in found:
                faults.append(f"{to} for {words}: {found.strip()}")
    return faults


def other_counts():
    """The counts in docs/architecture.md that are not those of the repository, and the time of the first build that README.md has not."""
    edits = glob.glob(f"{TOP}/crates/*/must-fail/*.edit")
    folders = {os.path.dirname(it) for it in edits}
    page, plain = text("docs/architecture.md"), " ".join(text("README.md").split())
    wanted = [f"its {len(glob.glob(f'{TOP}/checks/*.py'))} checks", f"wrong bodies that `rt ci` tries | {len(edits)}, in {len(folders)} crates"]
    takes = re.search(r'(?m)^FROM_NOTHING = "(.*)"$', text("tools/build"))
    return [f"it does not say: {it}" for it in wanted if it not in page] + ["README.md says another time than tools/build"] * (not takes or takes[1] not in plain)


def clauses_of(crate):
    """The clauses of each function of a crate by its name, the empty word for one without a name; and the functions that others call."""
    clauses, public = {}, set()
    for path in glob.glob(f"{TOP}/crates/{crate}/src/**/*.rt", recursive=True):
        name, of_trait = "", False
        with open(path, encoding="utf-8") as file:
            for line in file:
                of_trait = bool(re.match(r"(pub )?trait |impl\b.*\bfor\b", line)) if re.match(r"\S", line) and not line.startswith(("}", ")", "#", "/")) else of_trait
                head = re.match(r"(\s*)(pub(?:\(\w+\))? )?(?:const |unsafe )*fn (\w+)", line)
                clause = re.match(r"\s*ensures (\w*) ?\{", line)
                if head:
                    name = head[3]
                    public |= {name} if head[2] == "pub " or of_trait and head[1] else set()
                elif clause:
                    clauses.setdefault(name, set()).add(clause[1])
    return clauses, public


def unnamed(path):
    """What the first line of a wrong body names that is no clause of a public function of its crate, or of one that it calls."""
    with open(path, encoding="utf-8") as file:
        line = file.readline().rstrip("\n")
    named = re.fullmatch(r"# refused by ([\w:]+): ([\w, ]+)((?:; in [\w:]+: [\w, ]+)*)(?: \(.*\))?", line)
    if not named:
        return [f"{path}: {line}"]
    clauses, public = clauses_of(path.split("/")[-3])
    pairs = [named.group(1, 2), *re.findall(r"; in ([\w:]+): ([\w, ]+)", named[3])]
    wrong = [f"{path}: {pairs[0][0]} is no public function"] * (pairs[0][0].split("::")[-1] not in public)
    for function, words in pairs:
        wanted = {"" if it == "its clause" else it for it in words.strip().split(", ")}
        wrong += [f"{path}: {function} has no clause {it}" for it in sorted(wanted - clauses.get(function.split("::")[-1], set()))]
    return wrong


def missing_edits():
    """The wrong bodies that docs/DECISIONS.md names and that are not there."""
    page = text("docs/DECISIONS.md").partition("\n## Wrong bodies\n")[2].partition("\n## ")[0]
    named = [(crate, it) for crate, words in re.findall(r"`(snd_\w+)`: ((?:`\w+`(?:, )?)+)", page) for it in re.findall(r"`(\w+)`", words)]
    return [f"{crate}: {it}" for crate, it in named if not os.path.exists(f"{TOP}/crates/{crate}/must-fail/{it}.edit")] + ["none is named"] * (len(named) < 15)


tried = try_page("README.md", [block for word, block, _ in fences(text("README.md")) if word == "console"], ("snd", "examples"))
for name in PAGES[1:]:
    tried += try_page(name, [block for word, block, _ in fences(text(name)) if word == "console"])
tried += try_page("docs/snd.1", examples(text("docs/snd.1")))
for name in PAGES:
    cases.case(f"{name}: blocks that are not tried", not_tried(text(name)))
    cases.case(f"{name}: what it names", [f"missing: {it}" for it in missing(name, text(name))])
lines = text("README.md").count("\n")
cases.case("README.md: its length", [f"{lines} lines"] * (lines > MOST_LINES))

cases.case("docs/architecture.md: its counts", other_counts())
cases.case("must-fail: the clauses that they name", [it for path in sorted(glob.glob(f"{TOP}/crates/*/must-fail/*.edit")) for it in unnamed(path)])
cases.case("docs/DECISIONS.md: wrong bodies", missing_edits())

rows = re.findall(r"(?m)^\| (\d+) \| (\w+) \| (.*?) \| (.*?) \|", text("docs/refusals.md"))
told = {number: word for number, word, _, _ in rows}
for name in ("crates/snd_layout/src/refusal.rt", "crates/snd_lines/src/refusal.rt"):
    found = re.findall(r"::(\w+) => (\d+),", text(name))
    cases.case(f"docs/refusals.md against {name}", [f"{number} {word}" for word, number in found if told.get(number) != word] + ["none found"] * (not found))
entries = re.findall(r"(?ms)^\.B (\d+) (\w+)\n(.*?)\n\.br\n\.I What to do:\n(.*?)(?=\n\.(?:TP|SS|SH))", text("docs/snd.1"))
plain = [tuple(" ".join(re.sub(r"\\f[BR]|`", "", part).replace(r"\-", "-").split()) for part in it) for it in entries]
wanted = [tuple(part.replace("`", "") for part in it) for it in rows]
cases.case("docs/refusals.md against docs/snd.1", [f"{it}" for it in sorted({*plain} ^ {*wanted}, key=lambda it: int(it[0]))])

commands = re.findall(r"(?m)^\.SS snd ([a-z]\S*)", text("docs/snd.1").replace(r"\-", "-"))
helped = {it: finished([program, *it.split()]).stdout.decode() for it in ("--help", *(f"{it} --help" for it in dict.fromkeys(commands)))}
for it, said in helped.items():
    wide = [line for line in said.splitlines() if len(line) > 80]
    form = [line for line in re.findall(r"(?m)^(?:Usage: |       )(snd .*)$", said) if line not in helped["--help"]]
    lacks = [word for word in re.findall(r"(?m)^  (--?[a-z]\S*)", said) if it != "--help" and word not in helped["--help"] and word != "-o"]
    cases.case(f"snd {it}", [f"a line of {len(line)}" for line in wide] + [f"--help lacks {word}" for word in form + lacks] + ["it says nothing"] * (not said))
page = text("docs/snd.1").replace(r"\-", "-")
options = {*re.findall(r"(?<![\w-])(-(?:pcm\w+|ulaw|alaw|ima-adpcm|ms-adpcm|rack))\b", page)} | {f"--str-{it}" for it in ("title", "artist", "album", "comment", "copyright", "date")}
cases.case("snd --help: the options of the manual page", [f"it lacks {it}" for it in sorted(options) if it not in helped["--help"]] + ["none found"] * (len(options) < 15))

os.mkdir("made")
subprocess.run([sys.executable, f"{TOP}/examples/make.py", "made"], check=True)
made = sorted(os.listdir("made"))
other = [it for it in made if open(f"made/{it}", "rb").read() != open(f"{TOP}/examples/{it}", "rb").read()]
cases.case("examples/make.py", [f"makes another {it}" for it in other] + ["makes nothing"] * (not made))
cases.end(tried + 2 * len(PAGES) + 9 + len(helped))
