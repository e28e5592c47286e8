"""Runs the program on the commands of its scenarios, and compares what it prints and writes with their replies.

crates/bao_gather/scenarios/replies.txt has a command a line, those of lines.txt, and indented below it the reply that scripts/scenarios.py computes from the
definitions alone. Empty lines and lines that begin with '#' stand between them. A command is one of these:

    anew                    a scene begins: in a folder of its own, beside the others
    run WORD ..             runs the program on the words, where '$' stands for the digits that it printed last and '_' in a word for a space
    show FILE               the length of FILE, and the first digits of its plain hash, by the program
    blob FILE N             FILE gets the bytes i mod 251, N of them
    bytes FILE [DIGITS]     FILE gets these bytes, in hexadecimal digits
    copy FROM TO N          TO gets the first N bytes of FROM
    flip FILE AT            the lowest bit of this byte is changed
    claim FILE N            FILE begins with this length
    append FILE DIGITS      FILE gets these bytes too
    steps FILE TEXT         FILE gets the text, in which each ';' is a line end
    add FILE TEXT           FILE gets it too
    fills FILE SEAT N       FILE gets a step for each of the chunks 0 to N - 1, which the seat fills
    remove FILE ..          the files are removed

With BRIEF in the environment, groups of lines with a blob of four million bytes or more are left out: an unproved program takes minutes for them.
"""
import os
import re
import subprocess

from cases import PROGRAM, ROOT, Case, changed, each
from scenarios import blob_of

REPLIES = f"{ROOT}/crates/bao_gather/scenarios/replies.txt"

# How many digits a hash has, and how many of them are shown.
DIGITS, SHORT = 64, 16

LARGE = re.compile(r"^blob \w+ [4-9]\d{6}$", re.M)

# No run comes near these seconds.
LONGEST = 1200


def scenes():
    """Returns each scene, under its first comment: its commands with their replies, in lines."""
    with open(REPLIES, encoding="utf-8") as it:
        groups = it.read().split("\n\n")
    kept = "\n\n".join(it for it in groups if "BRIEF" not in os.environ or not LARGE.search(it))
    for scene in kept.split("\n\nanew\n\n")[1:]:
        commands = []
        for line in scene.splitlines():
            if line.startswith("    "):
                commands[-1][1].append(line[4:])
            elif line and not line.startswith("#"):
                commands.append((line, []))
        yield scene.splitlines()[0].removeprefix("# "), commands


def lines_of(name, printed):
    """Returns the lines of a stream, each behind its name. A last line without its end is told."""
    *lines, last = printed.decode().split("\n")
    said = [f"{name}: {it}" if it else f"{name}:" for it in [*lines, *filter(None, [last])]]
    return said + [f"{name} without a line end"] * bool(last)


class Scene:
    """The files of the commands, in a folder, and the digits that were printed last."""

    def __init__(self, folder):
        self.folder, self.digits = folder, ""

    def path(self, file):
        return os.path.join(self.folder, file)

    def read(self, file):
        with open(self.path(file), "rb") as it:
            return it.read()

    def write(self, file, data):
        with open(self.path(file), "wb") as it:
            it.write(data)

    def called(self, words):
        """Runs the program under its own name, which it prints."""
        how = {"cwd": self.folder, "stdin": subprocess.DEVNULL, "capture_output": True, "timeout": LONGEST}
        return subprocess.run(["bao_gather", *words], executable=PROGRAM, **how)

    def do(self, line):
        """Does what a command says, and returns the lines of its reply."""
        name, _, rest = line.partition(" ")
        match name, rest.split(" ") if rest else []:
            case "run", words:
                return self.run([self.digits if it == "$" else it.replace("_", " ") for it in words])
            case "show", [file]:
                return [self.told(file)]
            case "steps", [file, *text]:
                self.write(file, steps_of(text))
            case "add", [file, *text]:
                self.write(file, self.read(file) + steps_of(text))
            case "fills", [file, seat, count]:
                self.write(file, self.read(file) + "".join(f"\nfill {seat} {it}" for it in range(int(count))).encode() + b"\n")
            case "remove", files:
                for file in files:
                    os.remove(self.path(file))
            case "blob", [file, length]:
                self.write(file, blob_of(int(length)))
            case "bytes", [file, *digits]:
                self.write(file, bytes.fromhex("".join(digits)))
            case "copy", [source, to, length]:
                self.write(to, self.read(source)[: int(length)])
            case "flip", [file, at]:
                self.write(file, changed(self.read(file), int(at)))
            case "claim", [file, length]:
                self.write(file, int(length).to_bytes(8, "little") + self.read(file)[8:])
            case "append", [file, digits]:
                self.write(file, self.read(file) + bytes.fromhex(digits))
            case _:
                raise ValueError(f"no such command: {line}")
        return []

    def run(self, words):
        ran = self.called(words)
        printed = ran.stdout.decode().rstrip()
        if len(printed) == DIGITS:
            self.digits = printed
        return [f"status {ran.returncode}", *lines_of("out", ran.stdout), *lines_of("err", ran.stderr)]

    def told(self, file):
        if not os.path.exists(self.path(file)):
            return "none"
        return f"{len(self.read(file))} bytes {self.called(['hash', file]).stdout.decode()[:SHORT]}"


def steps_of(words):
    return " ".join(words).replace(";", "\n").encode()


@each(scenes())
class Scenarios(Case):
    def tried(self, commands):
        """Up to the first reply that differs: later commands build on it."""
        scene = Scene(self.folder())
        for number, (line, wanted) in enumerate(commands, 1):
            said = scene.do(line)
            self.assertEqual(said, wanted, f"{PROGRAM}: command {number}, {line}: it says {said}, and not {wanted}")
            if line.startswith("run"):
                self.holds(True, line)
