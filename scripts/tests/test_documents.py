"""Looks at the documents: links, lines and the examples for a shell.

The documents are the Markdown files at the top and in docs/. A link to a file of the repository leads to one, and to a heading or a line of it where it names
one; so does the name of a source or a script between backticks. An example is a line of code that begins with '$ '; the lines of code below it, up to the next
one, are what it prints, on either stream. Those of a document run in order, in one shell, in a folder of their own.
"""
import glob
import os
import re
import subprocess

from cases import PROGRAM, ROOT, Case, each

WIDEST = 120
INDENT, END = "    ", "the example ends"
CODE = re.compile(r"(`+).+?\1")
LINK = re.compile(r"!?\[([^\]]*)\]\([^)]*\)")
# A file of the repository that is called by its name alone.
NAMED = re.compile(r"`((?:scripts|crates|c|fetch|nbd|bench|python|packaging)/[\w/.-]+\.[a-z]\w*)`")
DOCUMENTS = sorted(os.path.relpath(it, ROOT) for it in glob.glob(f"{ROOT}/*.md") + glob.glob(f"{ROOT}/docs/*.md"))


def text_of(file):
    with open(f"{ROOT}/{file}", encoding="utf-8") as it:
        return it.read()


def without_fences(text):
    return re.sub(r"^(```|~~~).*?^\1", "", text, flags=re.M | re.S)


def anchors(file):
    """Returns what may follow a # in a link to a file: the headings of a document, the lines of a source."""
    text = text_of(file)
    if not file.endswith(".md"):
        return {f"L{number}" for number in range(1, text.count("\n") + 1)}
    heads = re.findall(r"^#+ (.*)$", without_fences(text), re.M)
    return {re.sub(r"[^\w\- ]", "", LINK.sub(r"\1", it).lower()).strip().replace(" ", "-") for it in heads}


def lost(document):
    """Returns the links and names of files that lead nowhere."""
    text = text_of(document)
    # (a word in capitals stands for a name)
    found = [it for it in NAMED.findall(text) if not os.path.exists(f"{ROOT}/{it}") and not re.search(r"\b[A-Z]{3,}\b", it)]
    for link in re.findall(r"\]\(([^)\s]+)\)", CODE.sub("", without_fences(text))):
        if re.match(r"[a-z]+:", link):
            continue
        path, _, name = link.partition("#")
        file = os.path.normpath(os.path.join(os.path.dirname(document), path)) if path else document
        if not os.path.exists(f"{ROOT}/{file}") or name and (os.path.isdir(f"{ROOT}/{file}") or name not in anchors(file)):
            found.append(link)
    return found


def examples_of(document):
    """Returns a document's examples: each command, and the lines that it should print."""
    found, inside, fenced = [], False, False
    for line in text_of(document).split("\n"):
        if line.startswith("```"):
            fenced, inside = not fenced, False
            continue
        code = line if fenced else line[len(INDENT) :] if line.startswith(INDENT) else None
        if code is not None and code.startswith("$ "):
            found.append((code[2:], []))
            inside = True
        elif inside and code is not None:
            found[-1][1].append(code)
        else:
            inside = False
    return found


@each((it, it) for it in DOCUMENTS)
class Links(Case):
    def tried(self, document):
        self.assertEqual(lost(document), [], f"these links lead nowhere: {lost(document)}")
        wide = [number for number, it in enumerate(text_of(document).split("\n"), 1) if len(it) > WIDEST and not it.startswith("|")]
        self.assertEqual(wide, [], f"lines of more than {WIDEST} columns: {wide}")


@each((it, it) for it in DOCUMENTS if examples_of(it))
class Examples(Case):
    def tried(self, document):
        examples, folder = examples_of(document), self.folder()
        os.makedirs(f"{folder}/bin")
        os.symlink(PROGRAM, f"{folder}/bin/bao_gather")
        os.makedirs(f"{folder}/work")
        script = "exec 2>&1\n" + "".join(f"{command}\necho '{END}'\n" for command, _ in examples)
        settings = {**os.environ, "PATH": f"{folder}/bin:{os.environ['PATH']}", "LC_ALL": "C"}
        ran = subprocess.run(["bash"], input=script, capture_output=True, text=True, cwd=f"{folder}/work", env=settings)
        printed = [part.split("\n")[:-1] for part in ran.stdout.split(END + "\n")[:-1]]
        self.assertEqual(len(printed), len(examples), f"{len(examples)} examples, of which {len(printed)} ran")
        for (command, wanted), got in zip(examples, printed):
            self.holds(wanted == got, "\n".join([f"$ {command}", *(f"  says   {it}" for it in wanted), *(f"  prints {it}" for it in got)]))
