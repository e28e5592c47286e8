"""The manual page of bao_gather, and its completions for bash, zsh and fish.

Commands and options are those of the help texts in scripts/clap.txt, to which the tests hold the program. Statuses are those of the types of faults.
FILES, LIMITS and EXAMPLES are the sections of docs/MANUAL.md that SECTIONS names, and DESCRIPTION is what stands before all of them.
"""
import os
import re
import subprocess

import markdown
import roff
from page import Code, Head, Para, Terms
from project import text_of
from sources import first_sentence, stop

NAME = "bao_gather"
HELP = "scripts/clap.txt"
DOCUMENT = "docs/MANUAL.md"
# Where sections of the page come from: what stands there before the first heading is the description.
SECTIONS = {"FILES": "Output files", "LIMITS": "Limits", "EXAMPLES": "Examples"}
# What a completion says of an option by the name of its value: none, or a file; any other is a word.
FILES = ("FILE", "LIST")
MEANT = {"0": "Done.", "1": "What was given doesn't verify, or is unfinished.", "2": "Usage.", "3": "A file can't be read or written.", "4": "Out of memory."}

# The pages that are written by hand, and the sections that each has to have.
BY_HAND = {
    "fetch/bw-fetch.1": ["NAME", "SYNOPSIS", "DESCRIPTION", "OPTIONS", "EXIT STATUS", "FILES", "EXAMPLES", "LIMITS"],
    "nbd/nbdkit-berylwool-plugin.1": ["NAME", "SYNOPSIS", "DESCRIPTION", "EXAMPLES", "PARAMETERS", "SEE ALSO"],
}


def version():
    return re.search(r"^    out: bao_gather (\S+)$", text_of(HELP), re.M)[1]


def date():
    """Returns the day of the release that the changelog begins with, or where that has none the day of the last commit."""
    told = re.match(r".*?\b(\d{4}-\d\d-\d\d)\b", text_of("CHANGELOG.md").split("\n## ")[1].split("\n")[0])
    if told:
        return told[1]
    ran = subprocess.run(["git", "log", "-1", "--format=%cs"], capture_output=True, text=True)
    return ran.stdout.strip()


class Help:
    """One help text: what the command does, its usage, its arguments and options with their texts, and what is said below them."""

    def __init__(self, lines):
        self.does, self.usage, self.parts, self.notes = lines[0], "", {}, []
        part = None
        for line in lines[1:]:
            if line.startswith("Usage: "):
                self.usage = line[len("Usage: ") :]
            elif line in ("Commands:", "Arguments:", "Options:"):
                part = self.parts.setdefault(line[:-1], [])
            elif part is not None and line.strip():
                if self.notes or not line.startswith(" "):
                    self.notes.append(line)
                else:
                    words, _, text = line.strip().partition("  ")
                    part.append((words, text.strip()))

    def options(self):
        """Its options: the long word, the name of the value that follows, if one does, and the text."""
        for words, text in self.parts.get("Options", []):
            yield re.search(r"--[a-z-]+", words)[0], "".join(re.findall("<(.*)>", words)), text

    def said(self):
        """What is said below the options, as blocks: sentences, and forms with their meanings."""
        out, forms = [], []
        for line in self.notes:
            form = re.fullmatch(r"  (\S+(?: \S+)*)  +(\S.*)", line)
            if form:
                forms.append((form[1], [Para(form[2])], ""))
            elif out:
                out[-1].text += f" {line}"
            else:
                out.append(Para(line))
        return [*out, *([Terms(forms)] if forms else [])]


def helps():
    """Returns the help of the program, by command; that of the whole has the name ''."""
    found, name = {}, None
    for line in text_of(HELP).split("\n"):
        words = line.split()
        if line.startswith("run "):
            name = None
            if words[-1] == "--help" and len(words) < 4:
                name = words[1] if len(words) == 3 else ""
                found[name] = []
        elif name is not None and line.startswith("    out:"):
            found[name].append(line[len("    out: ") :])
    if len(found) < 5:
        stop(f"{HELP} has no help texts")
    return {name: Help(lines) for name, lines in found.items()}


def commands(known):
    out = [Head(2, "Commands")]
    for name, it in known.items():
        if name:
            rows = it.parts.get("Arguments", []) + it.parts.get("Options", [])
            out += [Head(3, name), Para(f"{it.does}."), Terms([(words, [Para(text)], "") for words, text in rows if not words.startswith("-h")]), *it.said()]
    return out


def exit_status(rows):
    """The section of statuses: of each what it means, and the lines of its faults."""
    out = []
    for status, meaning in MEANT.items():
        faults = [(text.removeprefix(f"{NAME}: "), [Para(f"{first_sentence(said)}.")], "") for number, text, said in rows if number == status]
        out.append((status, [Para(meaning), *([Terms(faults)] if faults else [])], ""))
    return [Head(2, "Exit status"), Para("A fault is one line on standard error."), Terms(out)]


def sections():
    """Returns the sections that come from the document, by the page's name of each."""
    there = markdown.sections_of(DOCUMENT)
    found = {"DESCRIPTION": [it for it in there[""] if isinstance(it, Para)]}
    for name, heading in SECTIONS.items():
        found[name] = there.get(heading, [])
    code = next((at for at, it in enumerate(found["EXAMPLES"]) if isinstance(it, Code)), None)
    found["EXAMPLES"] = found["EXAMPLES"][: code + 1] if code is not None else []
    for name, blocks in found.items():
        if not blocks:
            stop(f"{DOCUMENT} has nothing {f'under ## {SECTIONS[name]}' if name in SECTIONS else 'before its first heading'}")
    return found


def page(known, statuses):
    whole, said = known[""], sections()
    out = [Head(2, "Name"), Para(f"{NAME} - {whole.does[0].lower()}{whole.does[1:]}"), Head(2, "Synopsis"), Code([it.usage for name, it in known.items() if name])]
    out += [Head(2, "Description"), *said["DESCRIPTION"], *commands(known), *exit_status(statuses)]
    for name in SECTIONS:
        out += [Head(2, name), *said[name]]
    out += [Head(2, "See also"), Para("b3sum(1), bw-fetch(1), berylwool(3)")]
    out += [Para("The BLAKE3 paper: https://github.com/BLAKE3-team/BLAKE3-specs"), Para("The Bao specification: https://github.com/oconnor663/bao/blob/master/docs/spec.md")]
    return roff.page(NAME, 1, date(), f"{NAME} {version()}", out)


def bash(known):
    names = [name for name in known if name]
    out = [f"_{NAME}() {{", "    local word=${COMP_WORDS[COMP_CWORD]} command=${COMP_WORDS[1]}", "    if [[ $COMP_CWORD == 1 ]]; then"]
    out += [f'        COMPREPLY=($(compgen -W "{" ".join(names)} help --help --version" -- "$word"))', "        return", "    fi", "    case $command in"]
    for name in names:
        out += [f'        {name}) [[ $word == -* ]] && COMPREPLY=($(compgen -W "{" ".join(long for long, _, _ in known[name].options())}" -- "$word")) ;;']
    out += [f'        help) COMPREPLY=($(compgen -W "{" ".join(names)}" -- "$word")) ;;', "    esac", "}", f"complete -o default -F _{NAME} {NAME}"]
    return "\n".join(out) + "\n"


def zsh(known):
    def quoted(text):
        return text.replace("'", "'\\''").replace("[", "\\[").replace("]", "\\]").replace(":", "\\:")

    out = [f"#compdef {NAME}", "local -a commands=("]
    out += [f"    '{name}:{quoted(it.does)}'" for name, it in known.items() if name]
    out += [")", "if (( CURRENT == 2 )); then", "    _describe command commands", "    return", "fi", "case $words[2] in"]
    for name, it in known.items():
        if name:
            values = {long: ":file:_files" if value in FILES else ":value: " if value else "" for long, value, _ in it.options()}
            options = " ".join(f"'{long}[{quoted(text)}]{values[long]}'" for long, _, text in it.options())
            out += [f"    {name}) _arguments {options} '*:file:_files' ;;"]
    return "\n".join([*out, "esac"]) + "\n"


def fish(known):
    def quoted(text):
        return text.replace("\\", "\\\\").replace("'", "\\'")

    out = []
    for name, it in known.items():
        if name:
            out.append(f"complete -c {NAME} -n __fish_use_subcommand -a {name} -d '{quoted(it.does)}'")
            for long, value, text in it.options():
                taken = " -r" if value in FILES else " -x" if value else ""
                out.append(f"complete -c {NAME} -n '__fish_seen_subcommand_from {name}' -l {long[2:]}{taken} -d '{quoted(text)}'")
    return "\n".join(out) + "\n"


def files(statuses):
    """Returns the files, by their path below the folder of what is installed as share/."""
    known = helps()
    return {
        f"man/man1/{NAME}.1": page(known, statuses),
        f"bash-completion/completions/{NAME}": bash(known),
        f"zsh/site-functions/_{NAME}": zsh(known),
        f"fish/vendor_completions.d/{NAME}.fish": fish(known),
        **{f"man/man1/{os.path.basename(it)}": by_hand(it) for it in BY_HAND},
    }


def by_hand(file):
    """Returns such a page, with its date."""
    text, name = text_of(file), os.path.basename(file).removesuffix(".1").upper()
    missing = [it for it in BY_HAND[file] if f"\n.SH {it}\n" not in text]
    if missing or not re.match(rf'\.TH {name} 1 "[^"]*"', text.replace("\\-", "-")):
        stop(f"{file} lacks {', '.join(missing) or 'its first line'}")
    return re.sub(r'^(\.TH \S+ 1) "[^"]*"', rf'\1 "{date()}"', text)
