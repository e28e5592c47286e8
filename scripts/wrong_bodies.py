#!/usr/bin/env python3
"""Tries the wrong bodies of crates that the gate leaves out: the prover has to refuse each.

At the top of the repository. A wrong body is a file crates/NAME/wrong-bodies/FUNCTION.WHAT.edit, in the form of those of
crates/NAME/must-fail/, which the gate tries; both are tried. With no CRATE it is all that crates.txt names.
The crates below are proved first, where they aren't. Work is done on copies: first each crate is proved
over what `rt check` kept of it, then N lanes try its edits, each over a copy of that. Edits of the bodies of different
functions are tried together, up to BATCH of them: a function is proved from the contracts of those that it calls, so one
that isn't proved, and for another reason than a callee without a proof, has its own edit to thank. What isn't refused so is
tried without those that were, and then alone, at last from nothing, as `rt must-fail` does: so is an edit that changes anything but
one function's body.
A stored answer that no longer fits the changed code shows nothing of the contract. So each such answer is taken out, and the
check is made again, until none is left: an edit counts as refused only where a goal stays open then, or where the reason is
noted why it can't be tried so (REASONS).
Prints a line for each edit and last 'N refused, M not refused'. The exit status is 1 where one isn't refused.
A crate's file wrong-bodies/TRIED has a line for each edit that was refused: its own sum, a sum of what it was refused of, its
name, and the reason where there is one. What a body is refused of is what its function's proof stands on (scripts/grounds.py):
its contract, what that cites, and the contracts of what it calls, without comments. For an edit that changes anything but one
body it is the crate's text. What was refused of the same is not tried again, but with --anew.
--read proves nothing and takes seconds: it fails on an edit of either folder that can't be applied any more, or that
stands in both, and names each crate with edits that were never tried so, or of other grounds. With --strict it fails on those too,
but for the crates that scripts/untried.txt names, and where that names one that owes no trial.
--renamed OLD=NEW, which may be repeated, proves nothing either: an edit that was refused in the commit --since, HEAD if left out, is noted
as refused now where both the edit and what it was refused of are the same but for these names, as words of texts and of paths. NEW may
not have been a word of the crate.
"""
import copy
import hashlib
import os
import queue
import re
import shutil
import subprocess
import sys
import tempfile
import threading
import time

sys.dont_write_bytecode = True
import grounds
import rt_module
import script

OURS, GATES = "wrong-bodies", "must-fail"
# How many edits are tried together at the most: a check that refuses many is long, and lanes are to end together.
BATCH = 12
EDIT = re.compile(r"[A-Za-z0-9_-][A-Za-z0-9_.-]*\.edit")
# What `rt check` doesn't read.
TESTS = re.compile(r"src/tests[^/]*(/.*)?")
# A comment to its line's end, in Rattle beside the literals, where none begins, and in antt where it has its line for itself.
# A file that has a comment of the other kind, which ends elsewhere, is left as it is.
RATTLE = re.compile(r'''(r(#*)".*?"\2|"(?:\\.|[^"\\])*"|'(?:\\.|[^'\\])')|^[ \t]*//[^\n]*\n|[ \t]*//[^\n]*''', re.M | re.S)
ANTT = re.compile(r"^[ \t]*--[^\n]*\n", re.M)
COMMENTS = {".rt": (RATTLE, "/*"), ".antt": (ANTT, "{-")}
# What the prover says of a function that is not proved by itself, and of one that waits for another's proof.
FAILS, WAITS = re.compile(r"not proved(?!; it calls)|no proof: expected answers"), re.compile(r"(no proof:|not proved;) it calls")
# An error in a proof file, and the first line of a definition in one.
ERROR = re.compile(r"(?:note: )?(?:\./)?(proofs/\S+\.antt):(\d+):\d+: error")
DEFINITION = re.compile(r"(?:abbrev )?(?:pub )?(?:abbrev )?([^\s:(){}]+) :")
# Why an edit can't be tried without the answers that no longer fit.
REASONS = {
    "definition": "it changes a definition or a contract, on which lemmas stand",
    "lemma": "a lemma, an invariant or a proof by hand names what the edit changes",
}


def edits_of(crate, part):
    """Returns the crate's edits in this folder, and the files there that are none."""
    good, bad = [], []
    for at, folders, files in os.walk(f"{crate.folder}/{part}"):
        folders.sort()
        for name in sorted(files):
            is_edit = EDIT.fullmatch(name) and at == f"{crate.folder}/{part}"
            if is_edit or name != "TRIED" and not name.endswith(".md"):
                (good if is_edit else bad).append(f"{at}/{name}")
    return good, bad


def without_comments(name, text):
    """Returns the text of the file of that name without its comments, which change no verdict."""
    comment, other = COMMENTS.get(os.path.splitext(name)[1], (None, ""))
    return text if comment is None or other in text else comment.sub(lambda it: it[1] if it.lastindex else "", text)


def grounds_of(rt, crate, edits):
    """Returns a sum of what each edit is refused of, by its file's name."""
    files = [it for it in rt.rtlib.files_of(crate.folder) if not TESTS.fullmatch(os.path.relpath(it, crate.folder))]
    known, made, sums = grounds.Grounds(crate.folder, files, without_comments), hashlib.sha256(), {}
    for file in files:
        name = os.path.relpath(file, crate.folder)
        with open(file, encoding="utf-8", newline="") as it:
            made.update(repr((name, without_comments(name, it.read()))).encode())
    for edit in edits:
        change = Change.of(rt, crate, edit)
        of = change and known.of(*change.place)
        sums[os.path.basename(edit)] = of or made.hexdigest()[:16]
    return sums


def sums_of(edits):
    """Returns a sum of each edit, by its file's name."""
    sums = {}
    for file in edits:
        with open(file, "rb") as it:
            sums[os.path.basename(file)] = hashlib.sha256(it.read()).hexdigest()[:16]
    return sums


HEADER = "refused without the answers that no longer fit: an edit's sum, that of what it was refused of, its name"


def tried_of(rt, folder, sums, of):
    """Returns what wrong-bodies/TRIED says of the edits with these sums that were refused of the same: by its name, an edit's
    sum, that of what it was refused of, and the reason where there is one."""
    head, *told = (rt.rtlib.text_of(f"{folder}/{OURS}/TRIED") or "").split("\n")
    if not head.endswith(HEADER):
        return {}
    lines = [it.split() for it in told if it]
    said = {name: (made, ground, *why) for made, ground, name, *why in lines}
    return {name: it for name, it in said.items() if name in sums and it[:2] == (sums[name], of[name])}


def note_tried(folder, known):
    """Writes wrong-bodies/TRIED: of each refused edit, by its name, what tried_of gives."""
    told = "".join(f"{' '.join([made, ground, name, *why])}\n" for name, (made, ground, *why) in sorted(known.items()))
    os.makedirs(f"{folder}/{OURS}", exist_ok=True)
    with open(f"{folder}/{OURS}/TRIED", "w", encoding="utf-8") as it:
        it.write(f"{len(known)} {HEADER}\n{told}")


# Imports in a row, whose order says nothing.
IMPORTS = re.compile(r"(?:^(?:ghost |pub )*(?:use|mod) [^\n]*\n)+", re.M)


class Names:
    """Names that were changed for others, as words."""

    def __init__(self, pairs):
        self.new = dict(pairs)
        self.words = self.word(self.new)

    @staticmethod
    def pair(text):
        found = re.fullmatch(r"([\w']+)=([\w']+)", text)
        if not found:
            sys.exit(f"wrong-bodies: {text}: a pair is OLD=NEW, a word each")
        return found.groups()

    @staticmethod
    def word(names):
        return re.compile(r"(?<![\w'])(?:" + "|".join(map(re.escape, names)) + r")(?![\w'])")

    def put(self, text):
        return self.words.sub(lambda it: self.new[it[0]], text)

    def copy(self, rt, crate, folder, room):
        """Returns the crate as it stands in this folder, copied into a room, with the new name for each old one and imports in order."""
        made = copy.copy(crate)
        made.folder = f"{room}/{crate.name}"
        for part in (*rt.rtlib.PARTS, OURS, GATES):
            for at, _, names in os.walk(f"{folder}/{part}"):
                for name in names:
                    inside = os.path.relpath(f"{at}/{name}", folder)
                    to = f"{made.folder}/{inside if part in (OURS, GATES) else self.put(inside)}"
                    os.makedirs(os.path.dirname(to), exist_ok=True)
                    with open(to, "w", encoding="utf-8", newline="") as it:
                        it.write(IMPORTS.sub(lambda rows: "".join(sorted(rows[0].splitlines(True))), self.put(rt.rtlib.text_of(f"{at}/{name}"))))
        return made

    def taken(self, rt, crate, folder):
        """Returns the new names that are words of the crate in this folder, its comments aside."""
        texts = [without_comments(it, rt.rtlib.text_of(it)) for it in rt.rtlib.files_of(folder)]
        return {it for it in self.new.values() if any(self.word([it]).search(text) for text in texts)}


def edits_and_grounds(rt, crate):
    """Returns the sums of the edits of both folders, and those of what each is refused of."""
    edits = [it for part in (OURS, GATES) for it in edits_of(crate, part)[0]]
    return sums_of(edits), grounds_of(rt, crate, edits)


def carry(rt, crate, names, commit):
    """Notes in TRIED the edits that were refused in the commit of the same but for these names, and prints how many."""
    with tempfile.TemporaryDirectory(prefix="wrong-bodies-") as room:
        at = os.path.relpath(crate.folder)
        kept = subprocess.run(["git", "archive", commit, at], stdout=subprocess.PIPE, check=True).stdout
        subprocess.run(["tar", "x", "-C", room], input=kept, check=True)
        old = copy.copy(crate)
        old.folder = f"{room}/{at}"
        taken = names.taken(rt, crate, old.folder)
        if taken:
            sys.exit(f"wrong-bodies: {' '.join(sorted(taken))}: a word of {crate.name} before the change, so that nothing is known of what was renamed")
        was, now = (edits_and_grounds(rt, names.copy(rt, crate, folder, f"{room}/{name}")) for name, folder in (("was", old.folder), ("now", crate.folder)))
        said = tried_of(rt, old.folder, *edits_and_grounds(rt, old))
    sums, of = edits_and_grounds(rt, crate)
    known = tried_of(rt, crate.folder, sums, of)
    carried = {it for it in sums.keys() & said.keys() - known.keys() if all(there[it] == here[it] for there, here in zip(was, now))}
    note_tried(crate.folder, known | {it: (sums[it], of[it], *said[it][2:]) for it in carried})
    print(f"{crate.name}: {len(known)} of {len(sums)} were refused of the same before, {len(carried)} but for names, {len(sums) - len(known) - len(carried)} to try")


def definitions(text):
    """Returns the parts of a proof file: each definition with its clauses, and what stands before the first."""
    parts = [[]]
    for line in text.split("\n"):
        if DEFINITION.match(line):
            parts.append([])
        parts[-1].append(line)
    return parts


def without_answers(crate, texts, said, text_of):
    """Returns the texts without the answers in which a check found an error, or None where it found none in an answer."""
    wrong = {}
    for line in said:
        found = ERROR.match(line)
        if found and found[1].endswith("/Answers.antt"):
            wrong.setdefault(found[1], set()).add(int(found[2]))
    if not wrong:
        return None
    made = dict(texts)
    for file, lines in wrong.items():
        kept, at = [], 1
        for number, part in enumerate(definitions(made.get(file) or text_of(f"{crate.folder}/{file}"))):
            if number == 0 or not any(at <= it < at + len(part) for it in lines):
                kept += part
            at += len(part)
        # An error in the imports alone: nothing can be taken out.
        if "\n".join(kept) == (made.get(file) or text_of(f"{crate.folder}/{file}")):
            return None
        made[file] = "\n".join(kept)
    return made


def owed():
    """Returns the crates that are known to owe trials."""
    with open("scripts/untried.txt", encoding="utf-8") as it:
        return {line.strip() for line in it if line.strip() and not line.startswith("#")}


def read_alone(rt, crates, is_strict):
    """Says which edits can't be applied, and which crates have changed since theirs were tried."""
    unread, stale = 0, []
    for crate in crates:
        ours, theirs = (edits_of(crate, it) for it in (OURS, GATES))
        names = {os.path.basename(it) for it in theirs[0]}
        said = [(it, "an edit's name is of letters, digits, _, - and . and ends in .edit") for it in ours[1] + theirs[1]]
        said += [(it, f"it stands in {GATES}/ too") for it in ours[0] if os.path.basename(it) in names]
        said += [(it, rt.read_edit(it, crate.folder)[1]) for it in ours[0] + theirs[0]]
        for file, why in said:
            if why:
                print(f"{os.path.relpath(file)}: BAD EDIT: {why}")
                unread += 1
        edits = ours[0] + theirs[0]
        sums = sums_of(edits)
        left = sums.keys() - tried_of(rt, crate.folder, sums, grounds_of(rt, crate, edits))
        if left:
            stale.append(crate.name)
            print(f"{crate.name}: {len(left)} of {len(sums)} to try")
    if stale:
        print(f"wrong bodies not tried on these crates as they stand: make wrong-bodies CRATES='{' '.join(stale)}'")
    print(f"wrong bodies: {unread} that can't be applied, {len(stale)} crates to try")
    wrong = set(stale) ^ owed() if is_strict else set()
    for name in sorted(wrong):
        print(f"scripts/untried.txt: {name} {'owes no trial' if name not in stale else 'is not named'}")
    return 1 if unread or wrong else 0


def body_of(lines, number):
    """Returns the name of the function whose body has the line with this number, and where that begins, or None."""
    for first in range(number, -1, -1):
        head = grounds.HEAD.match(lines[first])
        if not head:
            continue
        indent, _, name = head.groups()
        opens = next((it for it in range(first, len(lines)) if re.fullmatch(indent + r"(\S.*)?\{", lines[it])), len(lines))
        ends = next((it for it in range(opens, len(lines)) if lines[it] == indent + "}"), -1)
        if ends > first:
            return (name, first) if opens < number < ends else None
    return None


class Change:
    """What an edit of one function's body changes: lines of a file."""

    def __init__(self, file, first, name, lines):
        self.file, self.place, self.name, self.lines = file, (file, first), name, lines

    @staticmethod
    def of(rt, crate, edit):
        """Returns the edit's change, or None where it changes anything else, or can't be applied."""
        texts, _ = rt.read_edit(edit, crate.folder)
        if not texts or len(texts) != 1:
            return None
        (file, text), = texts.items()
        old, new = rt.rtlib.text_of(f"{crate.folder}/{file}").split("\n"), text.split("\n")
        if not file.startswith("src/") or len(old) != len(new):
            return None
        lines = {it: new[it] for it in range(len(old)) if old[it] != new[it]}
        places = {body_of(old, it) for it in lines}
        if len(places) != 1 or None in places:
            return None
        (name, first), = places
        return Change(file, first, name, lines)

    def is_of(self, crate, function):
        """Returns whether this may be the function of that name, as the prover gives it."""
        parts = self.file.removeprefix("src/").removesuffix(".rt").split("/")
        module = [crate.name, *(it for it in parts if it not in ("lib", "main", "mod"))]
        found = function.split("::")
        return found[: len(module)] == module and found[-1] == self.name and len(found) - len(module) in (1, 2)


class Work:
    """The edits of one crate, with a copy of its text and of what its proof kept."""

    def __init__(self, rt, crate, edits, room, jobs, grounds, known):
        self.rt, self.edits, self.jobs, self.room = rt, edits, jobs, f"{room}/{crate.name}"
        self.lock, self.left, self.is_proved = threading.Lock(), len(edits), None
        # What a refused edit comes to: an older rt says no more than whether it was.
        self.changes, self.counts = {}, {getattr(rt, "REFUSED", True), getattr(rt, "AT_LIMIT", True)}
        self.had, self.noted = f"{crate.folder}/out/incremental", crate.folder
        self.grounds, self.sums, self.known = grounds, sums_of(edits), known
        self.crate = copy.copy(crate)
        self.crate.folder, self.crate.out = f"{self.room}/crate", sys.stderr
        for part in rt.rtlib.PARTS:
            if os.path.isdir(f"{crate.folder}/{part}"):
                shutil.copytree(f"{crate.folder}/{part}", f"{self.crate.folder}/{part}")

    def prove(self):
        """Proves the crate as it stands, once, and says whether that went well."""
        with self.lock:
            if self.is_proved is None:
                kept = f"{self.room}/kept"
                if os.path.isdir(self.had):
                    shutil.copytree(self.had, kept)
                ran = self.rt.checked(self.crate, {}, ["--jobs", str(self.jobs)], kept)
                self.is_proved = not ran.returncode
                if not self.is_proved:
                    print(f"wrong-bodies: {self.crate.name} is not proved as it stands:\n{ran.stdout[-900:]}", file=sys.stderr)
            return self.is_proved

    def kept_of(self, lane):
        """Returns the lane's own copy of what the proof kept."""
        kept = f"{self.room}/kept-{lane}"
        if not os.path.isdir(kept):
            shutil.copytree(f"{self.room}/kept", kept)
        return kept

    def batches(self):
        """Returns the edits in lists that are to be tried together: those of different bodies, and else one alone."""
        lists = []
        for edit in self.edits:
            change = self.changes[edit] = Change.of(self.rt, self.crate, edit)
            fits = (it for it in lists if change and len(it) < BATCH and all(self.is_apart(change, other) for other in it))
            room = next(fits, None)
            if room is None:
                lists.append(room := [])
            room.append(edit)
        return lists

    def is_apart(self, change, other):
        other = self.changes[other]
        return other is not None and other.place != change.place

    def checked_honestly(self, texts, kept):
        """Checks the crate with these texts, and again without each answer that no longer fits, until none is left. Returns
        the last check and how many such answers' checks there were."""
        for rounds in range(9):
            ran = self.rt.checked(self.crate, texts, ["--jobs", "1"], kept)
            said = ran.stdout.rstrip("\n").split("\n")
            fewer = without_answers(self.crate, texts, said, self.rt.rtlib.text_of) if ran.returncode == 1 else None
            if fewer is None:
                break
            texts = fewer
        return ran, rounds

    def tried_together(self, edits, lane):
        """Returns those of these edits that were refused, with what to say of each, and those that wait for another's proof."""
        texts = {}
        for edit in edits:
            change = self.changes[edit]
            text = texts.setdefault(change.file, self.rt.rtlib.text_of(f"{self.crate.folder}/{change.file}").split("\n"))
            for number, line in change.lines.items():
                text[number] = line
        ran, _ = self.checked_honestly({it: "\n".join(text) for it, text in texts.items()}, self.kept_of(lane))
        said = ran.stdout.rstrip("\n").split("\n")
        refused, waiting = {}, []
        if ran.returncode != 1 or not said[-1].startswith("logic=not-proved"):
            return refused, waiting
        told = [it.groups() for it in map(re.compile(r"fn (\S+): (.*)").match, said) if it]
        for edit in edits:
            change, label = self.changes[edit], f"{self.crate.name}/{os.path.basename(edit)}"
            of = [(function, why) for function, why in told if change.is_of(self.crate, function)]
            if len(of) == 1 and FAILS.match(of[0][1]) and not self.is_lemmas_fault(said, change, of[0][0]):
                first = next((it for it in said if self.speaks_of(it, change, of[0][0])), of[0][1])
                refused[edit] = f"{label}: refused, as it must be: {first[:160]}"
            elif len(of) == 1 and WAITS.match(of[0][1]):
                waiting.append(edit)
        return refused, waiting

    def speaks_of(self, line, change, function):
        """Returns whether the line is about this function's proof."""
        folder = "/".join(function.split("::")[1:])
        return re.match(rf"(note: [^ ]* ?(of )?)?(\./)?proofs/\+?{re.escape(folder)}/\S*", line) is not None

    def is_lemmas_fault(self, said, change, function):
        """Returns whether an error is left in a proof file of this function."""
        return any(ERROR.match(it) and self.speaks_of(it, change, function) for it in said)

    def tried(self, edit, lane):
        """Returns whether the edit, tried alone, was refused, what to say, and the reason where it can't be tried without the
        answers that no longer fit."""
        label = f"{self.crate.name}/{os.path.basename(edit)}"
        if not self.prove():
            return False, f"{label}: NOT TRIED: the crate itself is not proved", None
        came_to, text = self.rt.must_fail(self.crate, edit, ["--jobs", "1"], self.kept_of(lane))
        if came_to not in self.counts:
            came_to, text = self.rt.must_fail(self.crate, edit, ["--jobs", "1"])
        text = text.removeprefix("must-fail ")
        if came_to not in self.counts:
            return False, text, None
        if Change.of(self.rt, self.crate, edit) is None:
            return True, text, "definition"
        texts, _ = self.rt.read_edit(edit, self.crate.folder)
        ran, rounds = self.checked_honestly(texts, self.kept_of(lane))
        if not ran.returncode:
            return False, f"{label}: NOT REFUSED: proved once {rounds} times stored answers were taken out that no longer fitted", None
        said = ran.stdout.rstrip("\n").split("\n")
        if any(map(ERROR.match, said)):
            return True, text, "lemma"
        return True, text, None

    def ended(self, edit, is_refused, why):
        """Counts an edit that was tried, and notes one that was refused in TRIED. After the last one it removes the copies."""
        name = os.path.basename(edit)
        with self.lock:
            self.left -= 1
            if is_refused:
                self.known[name] = (self.sums[name], self.grounds[name], *([why] if why else []))
                note_tried(self.noted, self.known)
            if not self.left:
                shutil.rmtree(self.room, ignore_errors=True)


def try_all(rt, crates, jobs, is_anew):
    """Tries the edits of both folders, and returns how many were refused and how many weren't."""
    todo, refused, failed, printing = queue.Queue(), [], [], threading.Lock()

    def lane(number):
        while True:
            try:
                work, edits = todo.get_nowait()
            except queue.Empty:
                return
            if len(edits) > 1 and work.prove():
                together(number, work, edits)
            else:
                for edit in edits:
                    alone(number, work, edit)

    def together(number, work, edits):
        """Tries the edits at once, and then those that were not refused: without those that were, or each alone."""
        began = time.monotonic()
        try:
            gone, waiting = work.tried_together(edits, number)
        except Exception as error:
            print(f"wrong-bodies: {work.crate.name}: {error!r}", file=sys.stderr)
            gone, waiting = {}, []
        each = (time.monotonic() - began) / max(1, len(gone))
        for edit, text in gone.items():
            ended(work, edit, True, text, None, each)
        if 1 < len(waiting) < len(edits):
            together(number, work, waiting)
        else:
            waiting = []
        for edit in edits:
            if edit not in gone and edit not in waiting:
                alone(number, work, edit)

    def alone(number, work, edit):
        began = time.monotonic()
        why = None
        try:
            is_refused, text, why = work.tried(edit, number)
        except Exception as error:
            is_refused, text = False, f"{work.crate.name}/{os.path.basename(edit)}: NOT TRIED: {error!r}"
        ended(work, edit, is_refused, text, why, time.monotonic() - began)

    def ended(work, edit, is_refused, text, why, seconds):
        with printing:
            print(f"{text}{f' [{REASONS[why]}]' if why else ''} ({seconds:.0f} s)", flush=True)
            (refused if is_refused else failed).append(edit)
        work.ended(edit, is_refused, why)

    with tempfile.TemporaryDirectory(prefix="wrong-bodies-") as room:
        for crate in crates:
            found = [edits_of(crate, it) for it in (OURS, GATES)]
            for it in [it for _, bad in found for it in bad]:
                print(f"{os.path.relpath(it)}: BAD EDIT: an edit's name is of letters, digits, _, - and . and ends in .edit", flush=True)
                failed.append(it)
            edits = [it for good, _ in found for it in good]
            of = grounds_of(rt, crate, edits)
            known = {} if is_anew else tried_of(rt, crate.folder, sums_of(edits), of)
            edits = [it for it in edits if os.path.basename(it) not in known]
            if known:
                print(f"{crate.name}: {len(known)} were refused of the same before")
            if edits:
                if any(it.build_rlib(["--jobs", str(jobs)], anew=False) for it in crate.below()):
                    sys.exit(f"wrong-bodies: a library below {crate.name} is not proved")
                work = Work(rt, crate, edits, room, jobs, of, known)
                for it in work.batches():
                    todo.put((work, it))
        lanes = [threading.Thread(target=lane, args=(it,)) for it in range(jobs)]
        for it in lanes:
            it.start()
        for it in lanes:
            it.join()
    return len(refused), len(failed)


def main(*crates, jobs=0, anew=False, read=False, strict=False, renamed=(), since="HEAD"):
    """jobs is how many edits are tried at a time: if left out, one a processor, and 2 GB of memory each."""
    rt = rt_module.load()
    known = {it.name: it for it in rt.rtlib.crates_below(os.getcwd())}
    unknown = [it for it in crates if it not in known]
    if unknown:
        sys.exit(f"wrong-bodies: crates.txt names no crate {unknown[0]}")
    if read:
        return read_alone(rt, known.values(), strict)
    chosen = [it for it in known.values() if not crates or it.name in crates]
    if renamed:
        for it in chosen:
            carry(rt, it, Names(map(Names.pair, renamed)), since)
        return 0
    # (its first call sets a signal's handler, which only the main thread may)
    rt.rtlib.guarded()
    jobs = jobs or max(1, min(rt.processors(), rt.free() // 2_000_000_000))
    refused, failed = try_all(rt, chosen, jobs, anew)
    print(f"{refused} refused, {failed} not refused")
    return 1 if failed else 0


if __name__ == "__main__":
    script.run(main)
