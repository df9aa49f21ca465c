#!/usr/bin/env -S python3 -B
"""Uses of the library that must not compile. Each file of misuse/ has the message that its code must give; the code is tried as
a crate of its own, beside copies of the crates that it uses, and the message is the only error. No proof is needed for that,
so nothing that was built is copied, and what is refused is refused within seconds. Needs Python 3 and the kit (rt)."""
import os
import re
import shutil
import subprocess
import sys
import tempfile

from lib.head import TOP, Cases, has

if not has("misuse", "rt"):
    sys.exit(0)
cases = Cases("misuse")
USED = "snd_opening"


def lines_of(path):
    with open(path, encoding="utf-8") as file:
        return file.read().splitlines()


def lay_crates(folder):
    """Copies the crates that are used, and gives the names of those that the uses may name."""
    listed = dict(line.split(":", 1) for line in lines_of(f"{TOP}/crates.txt") if ":" in line and not line.startswith("#"))
    wanted, names = [USED], []
    while wanted:
        name = wanted.pop()
        if name not in names:
            names.append(name)
            wanted += listed.get(name, "").split()
    for name in names:
        for part in ("src", "specs", "proofs"):
            if os.path.isdir(f"{TOP}/crates/{name}/{part}"):
                shutil.copytree(f"{TOP}/crates/{name}/{part}", f"{folder}/crates/{name}/{part}")
    with open(f"{folder}/crates.txt", "w", encoding="utf-8") as file:
        file.writelines(f"{name}:{listed[name]}\n" for name in listed if name in names)
        file.write(f"misuse: {' '.join(names)}\n")
    # a text of its own, so that no library is taken that another checkout has built
    with open(f"{folder}/crates/snd_disk/src/lib.rt", "a", encoding="utf-8") as file:
        file.write(f"// {folder}\n")
    os.makedirs(f"{folder}/crates/misuse/src")


def wrong_use(folder, path):
    """The faults of a use: it must give its message, and no other error."""
    lines = lines_of(path)
    at = next((i for i, it in enumerate(lines) if it.startswith("message: ")), None)
    if at is None:
        return ["it has no line `message: `"]
    message = lines[at].removeprefix("message: ")
    with open(f"{folder}/crates/misuse/src/lib.rt", "w", encoding="utf-8") as file:
        file.write("\n".join(["#![tactic(auto)]", "", *lines[at + 1:]]) + "\n")
    for name in os.listdir(f"{folder}/crates"):
        shutil.rmtree(f"{folder}/crates/{name}/out", ignore_errors=True)
    done = subprocess.run(["rt", "check"], cwd=f"{folder}/crates/misuse", stdin=subprocess.DEVNULL, stdout=subprocess.PIPE, stderr=subprocess.STDOUT, timeout=600)
    said = done.stdout.decode(errors="replace")
    errors = len(re.findall(r"(?m)^.*error\[.*$", said))
    if errors == 1 and message and message in said and done.returncode:
        return []
    return [f"status {done.returncode} and {errors} errors, and one was wanted: {message}", *said.splitlines()[-5:]]


with tempfile.TemporaryDirectory() as folder:
    lay_crates(folder)
    for name in sorted(it for it in os.listdir(f"{TOP}/misuse") if it.endswith(".txt")):
        cases.case(name, wrong_use(folder, f"{TOP}/misuse/{name}"))
cases.end(5)
