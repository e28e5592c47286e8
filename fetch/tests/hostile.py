#!/usr/bin/env python3
"""Runs bw-fetch against hostile mirrors on loopback.

    hostile.py BW_FETCH MKBAO [NAME .. | -NAME ..]

A case has mirrors, a length, words and the wanted status. With 0 OUT has to be the blob, to the byte; with another status there must be no OUT. It runs in a
network of its own, where the kernel allows that. Ports are the system's; no case depends on how quick anything is. Its last line is 'N cases passed'.
"""
import concurrent.futures
import fcntl
import json
import os
import pathlib
import pty
import random
import re
import resource
import shlex
import shutil
import signal
import socket
import struct
import subprocess
import sys
import tempfile
import time

sys.dont_write_bytecode = True
sys.path.insert(0, str(pathlib.Path(__file__).resolve().parents[2] / "scripts"))
import mirrors
import peak

SIDE_BY_SIDE = 4
HERE = pathlib.Path(__file__).resolve().parent
LONGEST = 1000                          # seconds that a run may take, far above what any has to: it would hang
HEAD = 12_288                           # bytes of a file that are asked for at first
KEY = "77686174732074686520456c7669736820776f726420666f7220667269656e64"

CONTEXT = "berylwool 2026-11-27 tests of bw-fetch, wool \N{SHEEP}"

# A mirror is FILE@MODE[=VALUE]; of FILE, `bao` is the combined encoding, `plain` the blob, `bare` the blob without an outboard encoding beside it, `parents`
# that without the blob, `false` and `short` the blob beside one that is damaged at its end, or of a shorter blob; @dead is a port where nobody listens, and @good is left out.
# name, length, mirrors, words, status
CASES = [
    ("one .bao", 3_000_000, "bao", "", 0),
    ("one plain", 3_000_000, "plain", "", 0),
    ("empty .bao", 0, "bao", "", 0),
    ("empty plain", 0, "plain", "", 0),
    ("one byte", 1, "bao plain", "", 0),
    ("1024 bytes", 1024, "bao plain", "", 0),
    ("1025 bytes", 1025, "plain bao", "", 0),
    ("3072 bytes plain", 3072, "plain", "", 0),
    ("64 KiB and a byte", 65_537, "plain bao", "", 0),
    ("1 MiB", 1 << 20, "plain", "", 0),
    ("1 MiB and a byte", (1 << 20) + 1, "plain bao", "", 0),
    ("1 MiB and a byte, to a pipe", (1 << 20) + 1, "bao", "-", 0),
    ("64 MiB", 1 << 26, "plain bao", "", 0),
    ("64 MiB and a byte", (1 << 26) + 1, "plain bao", "", 0),
    ("64 MiB and a byte, to a pipe", (1 << 26) + 1, "plain bao", "-", 0),
    ("empty, to a pipe", 0, "bao", "-", 0),
    ("eight connections", 9_000_000, "bao plain", "-c 8", 0),
    ("one connection", 3_000_000, "bao@flip bao", "-c 1", 0),
    ("two liars of four", 20_000_000, "bao@noise bao bao@flip bao", "", 0),
    ("two liars of four, plain", 20_000_000, "plain@noise plain plain@flip plain", "", 0),
    ("two liars of four, to a pipe", 20_000_000, "bao@noise bao plain@flip plain", "-", 0),
    ("all lie", 5_000_000, "bao@noise plain@flip", "", 1),
    ("zeros", 5_000_000, "bao@zeros plain@zeros", "", 1),
    ("a byte of each mebibyte, elsewhere in each", 20_000_000, "bao@some=1 bao@some=2 bao@some=3", "", 0),
    ("a byte of each mebibyte, plain", 20_000_000, "plain@some=1 plain@some=2 plain@some=3", "", 0),
    ("the same byte in both", 3_000_000, "bao@at=1500000 bao@at=1500000", "", 1),
    ("the root's parent in one", 3_000_000, "bao@at=20 bao", "", 0),
    ("the root's parent in all", 3_000_000, "bao@at=20 bao@at=30", "", 1),
    ("the claim in one", 3_000_000, "bao@at=2 bao", "", 0),
    ("one has the beginning, the other the end", 9_000_000, "bao@to=5000000 bao@from=4400000", "", 0),
    ("one has the beginning, the other not all of the end", 9_000_000, "bao@to=4400000 bao@from=5000000", "", 1),
    ("truncates", 8_000_000, "bao@trunc bao", "", 0),
    ("truncates, alone", 3_000_000, "bao@trunc", "", 6),
    ("truncates, plain and alone", 3_000_000, "plain@trunc", "", 6),
    ("stalls", 9_000_000, "bao@stall bao", "--stall 60", 0),
    ("stalls, plain", 9_000_000, "plain@stall plain", "--stall 60", 0),
    ("stalls, alone", 3_000_000, "bao@stall", "--stall 0.5", 6),
    ("never answers, alone, under a limit", 3_000_000, "bao@never bao@stall", "--stall 0.5 --limit-rate 1G", 6),
    ("drips", 3_000_000, "bao@drip plain", "--stall 60", 0),
    ("drips, alone", 3_000_000, "bao@drip", "--stall 0.5", 6),
    ("never answers", 8_000_000, "bao@never plain", "--stall 60", 0),
    ("two never answer", 3_000_000, "bao@never plain@never plain", "--stall 60", 0),
    ("two stall", 3_000_000, "bao@stall plain@stall bao", "--stall 60", 0),
    ("the outboard encoding of the first stalls", 9_000_000, "plain@stall bare bare plain", "--stall 60", 0),
    ("stalls, and needs the outboard encoding of the other", 3_000_000, "bare@stall plain", "--stall 600", 0),
    ("an outboard encoding that stalls beside one that doesn't", 3_000_000, "bare parents@stall parents", "--stall 600", 0),
    ("never answers, alone", 8_000_000, "bao@never", "--stall 0.5", 6),
    ("headers without an end", 3_000_000, "bao@headers bao", "--stall 600", 0),
    ("headers without an end, alone", 3_000_000, "bao@headers", "--stall 600", 1),
    ("headers that drip, alone", 3_000_000, "bao@dripheaders", "--stall 0.5", 6),
    ("a body without an end", 3_000_000, "bao@endless bao", "", 0),
    ("a body without an end, plain and alone", 3_000_000, "plain@endless", "", 0),
    ("slow beside a quick one", 6_000_000, "bao@slow=60000 bao", "", 0),
    ("late", 3_000_000, "bao@late=0.05", "", 0),
    ("redirected", 3_000_000, "-@good bao@redirect=#0", "", 0),
    ("redirected, plain", 3_000_000, "-@good plain@redirect=#0", "", 0),
    ("redirected in a circle, and to a file", 3_000_000, "bao@loop bao@tofile bao", "", 0),
    ("redirected to a file alone", 3_000_000, "bao@tofile", "", 1),
    ("no ranges", 3_000_000, "bao@norange plain", "", 0),
    ("no ranges, alone", 3_000_000, "bao@norange", "", 0),
    ("no ranges of a short file", 30_000, "bao@norange", "", 0),
    ("no ranges of a short file, plain", 30_000, "plain@norange", "", 0),
    ("one range at a time", 5_000_000, "bao@onerange", "", 0),
    ("several ranges are the whole file", 5_000_000, "bao@severalwhole", "", 0),
    ("several ranges are 416", 5_000_000, "bao@several416", "", 0),
    ("several ranges, plain, one at a time", 5_000_000, "plain@onerange", "", 0),
    ("several ranges are 403", 5_000_000, "bao@several403", "", 0),
    ("several ranges are 500", 5_000_000, "bao@several500", "", 0),
    ("no ranges, plain and alone", 3_000_000, "plain@norange", "", 0),
    ("no ranges, to a pipe", 3_000_000, "bao@norange", "-", 0),
    ("no ranges, and lies", 3_000_000, "bao@norange bao@noise", "", 0),
    ("no ranges, longer than a window, to a pipe", 24_000_000, "bao@norange", "-", 0),
    ("no ranges, plain and longer than a window, to a pipe", 24_000_000, "plain@norange", "-", 0),
    ("no ranges, one connection at a time", 3_000_000, "bao@norange bao@norange", "-c 8", 0),
    ("no ranges, a lie half way", 9_000_000, "bao@wholeat=4500000", "", 1),
    ("no ranges, a lie half way, plain", 9_000_000, "plain@wholeat=4500000", "", 1),
    ("no ranges, false from half way on, beside the rest", 9_000_000, "bao@wholeto=5000000 bao@from=4400000", "", 0),
    ("no ranges, false up to half way, beside the rest", 9_000_000, "bao@wholefrom=4400000 bao@to=5000000", "", 0),
    ("no ranges at two that have a half each", 9_000_000, "bao@wholeto=5000000 bao@wholefrom=4400000", "", 0),
    ("no ranges at two that have a half each, to a pipe", 9_000_000, "bao@wholeto=5000000 bao@wholefrom=4400000", "-", 0),
    ("no ranges at three that lie, elsewhere in each", 20_000_000, "bao@wholesome=1 bao@wholesome=2 bao@wholesome=3", "", 0),
    ("no ranges at three that lie, plain", 20_000_000, "plain@wholesome=1 plain@wholesome=2 plain@wholesome=3", "", 0),
    ("no ranges, noise alone", 3_000_000, "bao@wholenoise", "", 1),
    ("no ranges, ends early", 3_000_000, "bao@wholetrunc", "", 6),
    ("no ranges, ends early, plain", 3_000_000, "plain@wholetrunc", "", 6),
    ("no ranges, ends early, beside the rest", 9_000_000, "bao@wholetrunc bao@from=4400000", "", 0),
    ("no ranges, ends early, beside the rest, to a pipe", 9_000_000, "bao@wholetrunc bao@wholefrom=4400000", "-", 0),
    ("no ranges, without an end", 3_000_000, "bao@wholeendless", "", 0),
    ("no ranges, stalls", 3_000_000, "bao@wholestall", "--stall 0.5", 6),
    ("no ranges, another claim", 9_000_000, "bao@wholeclaim=9003000 bao@norange bao@wholeclaim=8000000", "", 0),
    ("no ranges, another claim, to a pipe", 9_000_000, "bao@wholeclaim=9003000 bao@norange bao@wholeclaim=8000000", "-", 0),
    ("no ranges, a claim of 16 GB", 9_000_000, "bao@wholeclaim=17000000000 bao@norange bao@wholeclaim=16000000000", "", 0),
    ("no ranges, another claim alone", 9_000_000, "bao@wholeclaim=9003000", "", 1),
    ("no ranges of an outboard encoding that lies", 3_000_000, "false@norange plain@norange", "", 0),
    ("a header line of 150 KB", 3_000_000, "bao@longheader bao", "", 0),
    ("a header line of 150 KB, alone", 3_000_000, "bao@longheader", "", 1),
    ("a redirect's body without an end", 3_000_000, "-@good bao@endlessredirect=#0", "", 0),
    ("an outage of two seconds", 9_000_000, "bao@outage=2", "--patience 60", 0),
    ("an outage of two seconds, plain", 9_000_000, "plain@outage=2", "--patience 60", 0),
    ("one connection at a time", 3_000_000, "bao@oneconnection=1000000", "--patience 60", 0),
    ("one request in eight fails", 20_000_000, "bao@eighth", "", 0),
    ("one request in eight fails, plain", 20_000_000, "plain@eighth", "", 0),
    ("a third of all requests for parents fail", 20_000_000, "plain@thirdobao", "", 0),
    ("an outboard encoding that is busy, late", 3_000_000, "plain@busylate=1 plain@busylate=1", "", 6),
    ("nobody listens, for a while", 300_000, "bao@dead", "--patience 3", 6),
    ("a true one behind 16 that lie", 3_000_000, "bao@from=2200000 " * 16 + "bao", "", 0),
    ("a true one behind 16 that never answer", 3_000_000, "bao@never " * 16 + "bao", "--stall 3600 --max-time 200", 0),
    ("a true one behind 40 that stop after some bytes", 3_000_000, "bao@begins " * 40 + "bao", "--stall 3600 --max-time 200", 0),
    ("a true one behind 20 that stop after some bytes, plain", 3_000_000, "plain@begins " * 20 + "plain", "--stall 3600 --max-time 200", 0),
    ("a true one behind 16 that stop in the middle", 3_000_000, "bao@stall " * 16 + "bao", "--stall 3600 --max-time 200", 0),
    ("a true one behind 16 that are slow", 3_000_000, "bao@slowdata=3000 " * 16 + "bao", "--max-time 200", 0),
    ("parts in another order", 5_000_000, "bao@reversed", "", 0),
    ("parts of a short file put together", 60_000, "bao@coalesced", "", 0),
    ("parts that claim more than they have", 5_000_000, "bao@badparts bao", "", 0),
    ("shifted ranges", 3_000_000, "bao@shifted plain", "", 0),
    ("shifted ranges, alone", 3_000_000, "bao@shifted", "", 1),
    ("ranges that don't say where they are", 3_000_000, "bao@unplaced", "", 1),
    ("not HTTP", 3_000_000, "bao@nothttp bao", "", 0),
    ("closes", 3_000_000, "bao@close bao", "", 0),
    ("asks to wait a second", 3_000_000, "bao@later=1", "", 0),
    ("asks to wait a second, for data", 3_000_000, "bao@laterdata=1", "", 0),
    ("asks to wait until a date", 3_000_000, "bao@laterdate=2", "", 0),
    ("asks to wait a second, plain", 3_000_000, "plain@later=1", "", 0),
    ("asks to wait a second, plain and for data", 3_000_000, "plain@laterdata=1", "-c 1", 0),
    ("asks to wait no time, again and again", 3_000_000, "bao@busy=0", "", 6),
    ("asks to wait in words that tell no time", 3_000_000, "bao@busy=soon", "", 6),
    ("asks to wait beside one that is refused", 3_000_000, "bao@noise plain@later=1", "", 0),
    ("500 and 404", 3_000_000, "bao@e500 plain@e404 bao", "", 0),
    ("403 and 503, alone", 3_000_000, "bao@e403 plain@e503", "", 6),
    ("says that it is gzip", 3_000_000, "bao@gzip bao", "", 0),
    ("a longer claim", 3_000_000, "bao@longer plain@longer plain", "", 0),
    ("a claim of 2^64 - 1 bytes, alone", 3_000_000, "bao@huge", "", 1),
    ("a claim of 2^64 - 1 bytes, plain", 3_000_000, "plain@huge plain", "", 0),
    ("no outboard encoding", 3_000_000, "bare", "", 1),
    ("an outboard encoding at the second alone", 3_000_000, "bare plain", "", 0),
    ("an outboard encoding at a liar alone", 3_000_000, "bare plain@noise", "", 1),
    ("an outboard encoding at one that lies of the blob", 3_000_000, "bare plain@to=200000", "", 0),
    ("a false outboard encoding at the first", 3_000_000, "false plain", "", 0),
    ("a false outboard encoding alone", 3_000_000, "false", "", 1),
    ("an outboard encoding of a shorter blob first", 3_000_000, "short plain", "", 0),
    ("an outboard encoding of a shorter blob alone", 3_000_000, "short", "", 1),
    ("nobody listens at one", 3_000_000, "bao bao@dead", "", 0),
    ("nobody listens", 3_000_000, "bao@dead", "", 6),
    ("at most as long as it is", 100_000, "bao", "--max 100000", 0),
    ("longer than wanted", 100_000, "bao", "--max 99999", 1),
    ("longer than wanted, plain", 100_000, "plain", "--max 99999", 1),
]

FILES = {"bao": "blob.bao", "plain": "blob", "bare": "bare", "parents": "parents", "false": "false", "short": "short", "long": "long"}


class Failure(Exception):
    pass


def want(so, what):
    if not so:
        raise Failure(what)


class Place:
    """A folder with a blob and its encodings, and mirrors of it."""

    def __init__(self, folder, tools, length, key=""):
        fetch, mkbao = map(str, tools)
        self.folder, self.fetch = pathlib.Path(folder), [fetch, "--stall", "60"]        # a busy machine is no mirror that stalls
        seed = random.Random(length).randbytes(min(length, 1 << 24))
        self.blob = b"".join(seed[8:] + at.to_bytes(8, "little") for at in range(length // (1 << 24) + 1))[:length] if length >= 1 << 24 else seed
        self.put("blob", self.blob)
        self.root = subprocess.run([mkbao, self.folder / "blob", *([key] if key else [])], check=True, capture_output=True, text=True).stdout.strip()
        self.out, self.server, self.said = self.folder / "out", None, ""
        obao = (self.folder / "blob.obao").read_bytes()
        self.put("bare", self.blob)
        self.put("parents.obao", obao)
        self.put("false", self.blob)
        self.put("false.obao", obao[:-1] + bytes([obao[-1] ^ 1]) if len(obao) > 8 else b"\1" * 8)
        self.put("short", self.blob)
        chunks = (length + 1023) // 1024
        if chunks > 4 and chunks % 2 == 0:                  # all parents but the last, and the length to which they belong
            self.put("short.obao", ((chunks - 1) * 1024).to_bytes(8, "little") + obao[8:-64])

    def put(self, name, content):
        (self.folder / name).write_bytes(content)

    def serve(self, mirrors):
        """Starts mirrors, and answers their addresses."""
        self.end()
        self.put("requests", b"")
        asked = [it.partition("@") for it in mirrors.split()]
        modes = [mode or "good" for _, _, mode in asked]
        self.server = subprocess.Popen([sys.executable, HERE / "mirrors.py", self.folder, *(it for it in modes if it != "dead")], stdin=subprocess.PIPE,
                                       stdout=subprocess.PIPE, text=True)
        ports = iter(self.server.stdout.readline().split())
        ports = [1 if mode == "dead" else next(ports) for mode in modes]
        schemes = ["https" if mode.startswith(("tls:", "mutual:")) else "http" for mode in modes]
        return [f"{scheme}://127.0.0.1:{port}/{FILES[file]}" for (file, _, _), scheme, port in zip(asked, schemes, ports) if file != "-"]

    def requests(self, url):
        """The ranges of each request that the server of an address got, in order, as (start, end) without the end."""
        port = url.split(":")[2].split("/")[0]
        lines = [it.split() for it in (self.folder / "requests").read_text().splitlines()]
        return [mirrors.ranges_of(it[1], 1 << 62) for it in lines if it[0] == port]

    def end(self):
        if self.server:
            self.server.stdin.close()
            self.server.wait()
            self.server.stdout.close()
            self.server = None

    def run(self, words, urls, status, out=None, anew=True, **more):
        """Runs bw-fetch, and looks at its status and at OUT, which isn't there before unless it is to be. Its patience ends early only where it is to fail."""
        out = out or self.out
        if anew:
            self.out.unlink(missing_ok=True)
        patience = str(0.5 if status else LONGEST)
        ran = subprocess.run([*self.fetch, "-v", "--patience", patience, *words, self.root, out, *urls], capture_output=True, timeout=LONGEST, **more)
        self.said = ran.stderr.decode(errors="replace")
        want(ran.returncode == status, f"status {ran.returncode}, and not {status}")
        got = ran.stdout if out == "-" else self.out.read_bytes() if self.out.exists() else None
        if status == 0:
            want(got == self.blob, "OUT isn't the blob")
            left = sorted(it.name for it in self.folder.glob("out?*"))
            want(not left, f"{left} are left")
        elif out != "-":
            want(got is None, "there is an OUT")


def run_case(place, mirrors, words, status):
    words = words.split()
    out = "-" if "-" in words else None
    place.run([it for it in words if it != "-"], place.serve(mirrors), status, out)


# --- Cases that take more than one run, or other words

def resumes(place):
    """What a failure leaves is a mirror of the next run: here it has what the second mirror lacks."""
    place.run([], place.serve("bao@some=1 bao@to=5000000"), 1)
    want((place.folder / "out.part.fetch").exists(), "there is no OUT.part.fetch")
    place.run([], place.serve("bao@from=4400000"), 0)


def the_rest_alone(place):
    """The second mirror of the case before hasn't the blob by itself."""
    place.run([], place.serve("bao@from=4400000"), 1)


def local_alone(place):
    """A local path that has all needs no mirror that answers, and none is asked."""
    for mirrors in ("bao@dead", "bao"):
        urls = place.serve(mirrors)
        place.run([], [*urls, place.folder / "blob.bao"], 0)
        want(f"{urls[0]}: 0 bytes, " in place.said, "the mirror was asked")


def part_is_not_trusted(place):
    """An OUT.part.fetch of noise costs nothing."""
    place.put("out.part.fetch", random.Random(3).randbytes(2_000_000))
    place.run([], place.serve("bao"), 0)


def keeps_salvage(place):
    """A chunk that both mirrors have damaged is all that is lacking after two runs; a third mirror brings it."""
    for _ in range(2):
        place.run([], place.serve("bao@at=1500000 bao@at=1500000"), 1)
    want("unfinished: 1 KiB of 2930 are" in place.said, "more is lacking than a chunk")
    place.run([], place.serve("bao"), 0)


def keeps_old_out(place):
    """A failure leaves the OUT of before as it was."""
    place.put("out", b"before")
    for mirrors in ("bao@noise", "bao@at=150000"):
        ran = subprocess.run([*place.fetch, place.root, place.out, *place.serve(mirrors)], capture_output=True, timeout=LONGEST)
        want(ran.returncode == 1 and place.out.read_bytes() == b"before", "the OUT of before has changed")
    place.run([], place.serve("bao"), 0, anew=False)


def interrupted(place, number):
    """A signal while a mirror has given half and says nothing more: what came is kept."""
    urls = place.serve("bao@half")
    ran = subprocess.Popen([*place.fetch, "-c", "1", place.root, place.out, *urls], stderr=subprocess.PIPE)
    want(place.server.stdout.readline() == "blocked\n", "the mirror didn't begin to say nothing")
    ran.send_signal(number)
    _, said = ran.communicate(timeout=LONGEST)
    want(ran.returncode == 7 and b"interrupted" in said, f"status {ran.returncode}: {said}")
    want(not place.out.exists(), "there is an OUT")
    place.run([], place.serve("bao@from=4400000"), 0)


def sigint(place):
    interrupted(place, signal.SIGINT)


def sigterm(place):
    interrupted(place, signal.SIGTERM)


def keeps(place, stop):
    """After any end what came is kept, and the next run goes on: here with what another mirror has."""
    urls = place.serve("bao@half")
    ran = subprocess.Popen([*place.fetch, "-c", "1", place.root, place.out, *urls], stderr=subprocess.PIPE)
    want(place.server.stdout.readline() == "blocked\n", "the mirror didn't begin to say nothing")
    stop(ran)
    _, said = ran.communicate(timeout=LONGEST)
    want(not place.out.exists() and (place.folder / "out.part.fetch").stat().st_nlink == 1, "nothing is kept, or there is an OUT")
    place.run([], place.serve("bao@from=4400000"), 0)
    return ran.returncode


def sighup(place):
    want(keeps(place, lambda ran: ran.send_signal(signal.SIGHUP)) == 7, "another status")


def sigkill(place):
    keeps(place, lambda ran: ran.kill())


def disk_of(place, size, name):
    """A folder for a disk of so many bytes, and the command that mounts it; None where that isn't allowed, which is said."""
    disk = place.folder / "disk"
    disk.mkdir()
    mount = f"mount -t tmpfs -o size={size} none {disk}"
    if shutil.which("unshare") and subprocess.run(["unshare", "-m", "sh", "-c", mount], capture_output=True).returncode == 0:
        return disk, mount
    print(f"hostile.py: not run, since no mount is allowed here: {name}")
    return disk, None


def a_full_disk_keeps(place):
    """Status 3 in the middle, on a disk that has no room: what came is kept. It needs a mount of its own."""
    disk, mount = disk_of(place, 6000000, "a full disk keeps")
    if not mount:
        return
    url, = place.serve("bao")
    words = f"{shlex.join(place.fetch)} {place.root} {disk}/out {url}"
    script = f"{mount} && {{ {words}; [ $? = 3 ]; }} && mount -o remount,size=40000000 {disk} && {words} && cmp {disk}/out {place.folder}/blob"
    ran = subprocess.run(["unshare", "-m", "sh", "-c", script], capture_output=True, timeout=LONGEST)
    want(ran.returncode == 0, f"status {ran.returncode}: {ran.stderr.decode(errors='replace')[-2000:]}")
    came = sum(end - start for it in place.requests(url) for start, end in it)
    want(came < 14_000_000, f"{came} bytes were asked for")


def own_part_as_a_mirror(place):
    """OUT.part.fetch among the mirrors loses nothing."""
    place.run([], place.serve("bao@some=1 bao@to=5000000"), 1)
    place.run([], [place.folder / "out.part.fetch", *place.serve("bao@from=4400000")], 0)


def resume_asks_for_the_rest(place):
    """A run that was killed late costs little more than what was lacking; also on a file system that lets others read every file."""
    place.run([], place.serve("bao@at=1500000 bao@at=1500000"), 1)
    (place.folder / "out.part.fetch").chmod(0o755)
    urls = place.serve("bao")
    place.run([], urls, 0)
    came = sum(end - start for it in place.requests(urls[0]) for start, end in it)
    want(came < 100_000, f"{came} bytes were asked for")


def damaged_part(place):
    """What is damaged in OUT.part.fetch is asked for again, and what is of another root is none."""
    place.run([], place.serve("bao@at=1500000 bao@at=1500000"), 1)
    part = bytearray((place.folder / "out.part.fetch").read_bytes())
    for at in range(0, len(part) - 48, 1_000_003):
        part[at] ^= 1
    place.put("out.part.fetch", bytes(part))
    place.run([], place.serve("bao"), 0)
    place.out.unlink()
    place.put("out.part.fetch", bytes(part[:-1]) + bytes([part[-1] ^ 1]))
    place.run([], place.serve("bao"), 0)


def right_out(place):
    """A right OUT is not fetched again. --check asks nobody."""
    place.put("out", place.blob)
    for words in (["--check"], []):
        urls = place.serve("bao")
        place.run(words, urls, 0, anew=False)
        want(not place.requests(urls[0]), "the mirror was asked")
    place.put("out", place.blob[:-1] + b"?")
    ran = subprocess.run([*place.fetch, "--check", place.root, place.out], capture_output=True, timeout=LONGEST)
    want(ran.returncode == 1 and b"doesn't have the root" in ran.stderr, f"status {ran.returncode}")


def read_only_out(place):
    """An OUT that may not be written is found to be right, or to be another; then nobody is asked. One that may not be read tells nothing."""
    may_not = ["setpriv", "--bounding-set", "-dac_override,-dac_read_search"]
    if not shutil.which("setpriv") or subprocess.run([*may_not, "true"], capture_output=True).returncode:
        print("hostile.py: not run, since setpriv isn't here: read only out")
        return
    urls = place.serve("bao")
    for content, mode, words, status in ((place.blob, 0o444, ["--check"], 0), (b"?", 0o444, ["--check"], 1), (place.blob, 0o200, ["--check"], 3), (place.blob, 0o444, [], 0),
                                         (b"?", 0o444, [], 3)):
        place.out.unlink(missing_ok=True)
        place.put("out", content)
        place.out.chmod(mode)
        ran = subprocess.run([*may_not, *place.fetch, *words, place.root, place.out, *urls], capture_output=True, timeout=LONGEST)
        want(ran.returncode == status, f"status {ran.returncode}, and not {status} of {words} and mode {mode:o}")
    want(not place.requests(urls[0]), "the mirror was asked")


def no_outboard_ends(place):
    """A plain file without an outboard encoding ends, alone and beside a mirror that nobody hears of."""
    for words in ([place.folder / "bare"], ["--outboard", place.folder / "none", place.folder / "bare"]):
        ran = subprocess.run([*place.fetch, place.root, place.out, *words], capture_output=True, timeout=LONGEST)
        want(ran.returncode == 1, f"status {ran.returncode}")


def queries(place):
    """The name ends before a query or a fragment, and a query goes to the outboard encoding, too."""
    urls = place.serve("bao plain")
    place.run([], [urls[0] + "?sig=a/b.c&x=1#part"], 0)
    place.out.unlink()
    place.run([], [urls[1] + "?sig=a/b.bao"], 0)
    want("blob.obao?sig=a/b.bao " in (place.folder / "requests").read_text(), "the query isn't in the outboard encoding's address")
    place.out.unlink()
    place.put("other", (place.folder / "blob.bao").read_bytes())
    place.run(["--bao", urls[0].replace("blob.bao", "other")], [], 0)


def silent_name_server(place):
    """A mirror whose name server says nothing costs no time beside a true one."""
    if not shutil.which("unshare") or not os.environ.get("BW_FETCH_ALONE"):
        print("hostile.py: not run, since no network of its own is allowed here: silent name server")
        return
    place.put("resolv.conf", b"nameserver 127.0.0.1\noptions timeout:30 attempts:5\n")
    with socket.socket(socket.AF_INET, socket.SOCK_DGRAM) as it:
        it.setsockopt(socket.SOL_SOCKET, socket.SO_REUSEADDR, 1)
        it.bind(("127.0.0.1", 53))
        url, = place.serve("bao")
        words = f"mount --bind {place.folder}/resolv.conf /etc/resolv.conf && exec {shlex.join(place.fetch)} {place.root} {place.out} http://silent.example/X.bao {url}"
        began = time.monotonic()
        ran = subprocess.run(["unshare", "-m", "sh", "-c", words], capture_output=True, timeout=LONGEST)
        took = time.monotonic() - began
        want(ran.returncode == 0 and place.out.read_bytes() == place.blob, f"status {ran.returncode}: {ran.stderr}")
        want(took < 120, f"it took {took} seconds")            # the name server would be asked for 150


def closed_output(place):
    """With standard output closed and OUT - nothing is asked, and with standard error closed OUT is right."""
    urls = place.serve("bao")
    ran = subprocess.run(f"{shlex.join(place.fetch)} {place.root} - {urls[0]} >&-", shell=True, stderr=subprocess.PIPE, timeout=LONGEST)
    want(ran.returncode == 3 and not place.requests(urls[0]), f"status {ran.returncode}")
    ran = subprocess.run(f"{shlex.join(place.fetch)} {place.root} {place.out} {urls[0]} <&- >&- 2>&-", shell=True, timeout=LONGEST)
    want(ran.returncode == 0 and place.out.read_bytes() == place.blob, f"status {ran.returncode}")


def part_of_others(place):
    """An OUT.part.fetch with another name, or that others may write, or that is none, isn't used."""
    part = place.folder / "out.part.fetch"
    for make in (lambda: os.link(place.folder / "victim", part), lambda: (place.put("out.part.fetch", b"x"), part.chmod(0o666)), lambda: os.mkfifo(part),
                 lambda: part.symlink_to(place.folder / "victim")):
        place.put("victim", b"before")
        make()
        place.run([], place.serve("bao"), 0)
        want((place.folder / "victim").read_bytes() == b"before", "another file was written")
        want(place.out.stat().st_nlink == 1 and place.out.stat().st_mode & 0o022 == 0, "OUT may be written by others")
        place.out.unlink()
        (place.folder / "victim").unlink()


def pipe_that_nobody_reads(place):
    """A signal ends a run whose pipe is full. One that doesn't block works, too."""
    urls = place.serve("bao")
    reader, writer = os.pipe()
    ran = subprocess.Popen([*place.fetch, place.root, "-", *urls], stdout=writer, stderr=subprocess.PIPE)
    os.read(reader, 1)
    ran.send_signal(signal.SIGTERM)
    _, said = ran.communicate(timeout=LONGEST)
    want(ran.returncode == 7, f"status {ran.returncode}: {said}")
    os.close(reader), os.close(writer)
    reader, writer = os.pipe()
    os.set_blocking(writer, False)
    ran = subprocess.Popen([*place.fetch, place.root, "-", *urls], stdout=writer, stderr=subprocess.PIPE)
    os.close(writer)
    with open(reader, "rb") as it:
        got = it.read()
    want(ran.wait(LONGEST) == 0 and got == place.blob, f"status {ran.returncode}")
    ran.stderr.close()


def few_descriptors(place):
    """Where descriptors are few, some connections are lost, and not the fetch."""
    urls = place.serve("bao " * 12)
    place.run(["-c", "8", "--patience", "60"], urls, 0, preexec_fn=lambda: resource.setrlimit(resource.RLIMIT_NOFILE, (30, 30)))


def no_secrets(place):
    """User, password and query of an address are never printed."""
    urls = [it.replace("http://", "http://me:secret@") + "?token=secret" for it in place.serve("bao@noise plain@e404")]
    place.run(["--json"], urls, 1)
    want("secret" not in place.said, place.said)


def private_redirects(place):
    """From a public address no redirect leads to a private one, unless that is allowed."""
    if not os.environ.get("BW_FETCH_ALONE"):
        print("hostile.py: not run, since no network of its own is allowed here: private redirects")
        return
    urls = place.serve("bao bao@redirect=#0")
    public = urls[1].replace("127.0.0.1", "198.51.100.1")
    place.run([], [public], 1)
    want(not place.requests(urls[0]), "a private address was asked")
    place.run(["--allow-private"], [public], 0)


def bounds(place):
    """--max-time ends it, with a status of its own; --limit-rate holds it up, also after a time when nothing came."""
    place.run(["--max-time", "1"], place.serve("bao@never"), 6)
    began = time.monotonic()
    place.run(["--limit-rate", "200K"], place.serve("bao@late=1.5"), 0)
    want(time.monotonic() - began > 3.7, "it was too quick")


def local_first(place):
    """What a local path has isn't asked of others, but for what is damaged there."""
    damaged = bytearray((place.folder / "blob.bao").read_bytes())
    damaged[1_500_000] ^= 1
    place.put("here.bao", bytes(damaged))
    urls = place.serve("bao")
    place.run([], [*urls, place.folder / "here.bao"], 0)
    came = int(re.search(r"blob.bao: (\d+) bytes", place.said)[1])
    want(came < 300_000, f"{came} bytes came over the network")


def many_at_once(place):
    """A manifest: one that fails stops no other, and the status is that of the worst."""
    good, bad = place.serve("bao bao@e404")
    lines = "".join(f"{place.root} {place.folder}/m{i} {url}\n" for i, url in enumerate([good, bad, good, good] * 5))
    place.put("manifest", ("# files\n" + lines).encode())
    ran = subprocess.run([*place.fetch, "--json", "--manifest", place.folder / "manifest"], capture_output=True, timeout=LONGEST)
    place.said = ran.stderr.decode()
    want(ran.returncode == 1, f"status {ran.returncode}")
    told = [json.loads(it) for it in ran.stdout.splitlines()]
    want(sorted(it["status"] for it in told) == [0] * 15 + [1] * 5, f"{told}")
    for i in range(20):
        it = place.folder / f"m{i}"
        want(it.exists() == (i % 4 != 1) and (i % 4 == 1 or it.read_bytes() == place.blob), f"{it}")
    want(told[0]["mirrors"][0]["bytes"] > 0 and any(it["mirrors"][0]["http"] == 404 for it in told), f"{told[0]}")


def lines_left_out(place):
    """A line that can't be begun is told, and stops no other. Standard output takes no line: several would be mixed there."""
    good, = place.serve("bao")
    lines = [f"{place.root} - {good}", f"{place.root[1:]} {place.folder}/short {good}", place.root, f"{place.root} {place.folder}/many {' '.join([good] * 1001)}"]
    place.put("manifest", "\n".join([*lines, f"{place.root} {place.out} {good}"]).encode())
    ran = subprocess.run([*place.fetch, "--manifest", place.folder / "manifest"], capture_output=True, timeout=LONGEST)
    place.said = ran.stderr.decode()
    want(ran.returncode == 2 and not ran.stdout and place.out.read_bytes() == place.blob, f"status {ran.returncode}")
    for it in ("-", f"{place.folder}/short", place.root, f"{place.folder}/many"):
        want(f"manifest: the line of {it} is left out" in place.said, it)


def headers(place):
    """A header goes to a mirror's own server, and not to another one that it leads to."""
    place.put("headers", b"X-Token: abc\n")
    urls = place.serve("bao bao@redirect=#0")
    place.run(["--header-file", place.folder / "headers"], urls[1:], 0)
    lines = [it.split() for it in (place.folder / "requests").read_text().splitlines()]
    ports = {it: {line[3] for line in lines if line[0] == url.split(":")[2].split("/")[0]} for it, url in enumerate(urls)}
    want(ports == {0: {"-"}, 1: {"abc"}}, f"{ports}")
    place.out.unlink()
    place.run(["-H", "X-Token: abc", "--user-agent", "me"], urls[:1], 0)


def any_name_in_json(place):
    """--json is UTF-8 whatever OUT's name is: a byte that is of no character is U+FFFD."""
    urls = place.serve("bao")
    for name, told in ((b"\xc3\xa9 \\\"\x01", "\u00e9 \\\"\x01"), (b"\xff.\xc3.\xed\xa0\x80", "\ufffd.\ufffd.\ufffd\ufffd\ufffd"), (b"\xf0\x9f\x90\x91\xe2\x82", "\U0001f411\ufffd\ufffd")):
        out = os.fsencode(place.folder) + b"/" + name
        ran = subprocess.run([*place.fetch, "--json", place.root, out, *urls], capture_output=True, timeout=LONGEST)
        place.said = ran.stderr.decode(errors="replace")
        want(ran.returncode == 0 and json.loads(ran.stdout.decode())["out"] == f"{place.folder}/{told}", f"{ran.stdout}")


def progress_in_json(place):
    reader, writer = os.pipe()
    urls = place.serve("bao")
    place.run(["--progress", str(writer)], urls, 0, pass_fds=(writer,))
    os.close(writer)
    with open(reader) as it:
        last = [json.loads(line) for line in it][-1]
    want(last["have"] == last["length"] == len(place.blob) or abs(last["have"] - len(place.blob)) < 1024, f"{last}")
    ran = subprocess.run([*place.fetch, "--version"], capture_output=True, timeout=LONGEST)
    want(ran.returncode == 0 and ran.stdout.startswith(b"bw-fetch "), "version")
    place.out.unlink()
    ran = subprocess.run([*place.fetch, "-q", place.root, place.out, *urls], capture_output=True, timeout=LONGEST)
    want(ran.returncode == 0 and not ran.stderr, f"{ran.stderr}")


def keyed(place):
    """Under a key of its own, and not without it."""
    place.put("key", KEY.encode() + b"\n")
    urls = place.serve("plain bao")
    place.run([], urls, 1)
    place.run(["--key-file", place.folder / "key"], urls, 0)


def under_a_context(place):
    """With a derived key, and not without it, nor with that of another context."""
    urls = place.serve("plain bao")
    place.run([], urls, 1)
    place.run(["--context", CONTEXT + "."], urls, 1)
    place.run(["--context", CONTEXT], urls, 0)


def mirrors_in_a_file(place):
    urls = place.serve("bao@noise bao")
    place.put("list", ("# mirrors\n\n" + "\n".join(f"  {it}  " for it in urls) + "\n").encode())
    place.run(["--mirrors", place.folder / "list"], [], 0)


def outboard_elsewhere(place):
    """By its address, and as a local file; the false one before it costs nothing but itself."""
    urls = place.serve("bare bare plain")
    place.run(["--outboard", urls[2] + ".obao"], urls[:2], 0)
    place.run(["--outboard", place.folder / "false.obao", "--outboard", place.folder / "blob.obao"], urls[:2], 0)


def two_outboards(place):
    """Two outboard encodings that are damaged in different places."""
    obao = bytearray((place.folder / "blob.obao").read_bytes())
    for name, at in (("one", 100_000), ("two", 150_000)):
        place.put(name, obao[:at] + bytes([obao[at] ^ 1]) + obao[at + 1:])
    urls = place.serve("bare")
    place.run(["--outboard", place.folder / "one"], urls, 1)
    place.run(["--outboard", place.folder / "one", "--outboard", place.folder / "two"], urls, 0)


def outboard_behind_others(place):
    """More outboard encodings are false than are asked at a time, of the length or of all else."""
    urls = place.serve("bare")
    obao = bytearray((place.folder / "blob.obao").read_bytes())
    obao[100_000] ^= 1
    place.put("one", obao)
    for name in ("false.obao", "one"):
        place.run([it for name in [name] * 17 + ["blob.obao"] for it in ("--outboard", place.folder / name)], urls, 0)


def behind_a_hundred(place):
    """Plain files that are false at their end, each beside the true outboard encoding, aren't each asked beside all of these before the next."""
    bad, good = place.serve("plain@at=2999999 plain")
    place.put("list", "\n".join([*(f"{bad}?{i}" for i in range(100)), good]).encode())
    place.run(["--mirrors", place.folder / "list"], [], 0)
    want(len(place.requests(bad)) < 1000, f"{len(place.requests(bad))} requests")


def local_mirrors(place):
    """A local path is a mirror, too; one that isn't there is left out."""
    place.run([], [place.folder / "none.bao", place.folder / "blob.bao"], 0)
    place.run([], [place.folder / "none", place.folder / "blob"], 0)


def units_asked(requests):
    """Where the last range of each request begins that asks for more than 512 KiB."""
    return [it[-1][0] for it in requests if sum(end - start for start, end in it) > 1 << 19]


def one_round_trip(place):
    """The length of a .bao costs one request: the next one brings what certifies it, and with it the first unit of the blob."""
    urls = place.serve("bao@late=0.05")
    place.run(["-c", "1"], urls, 0)
    asked = place.requests(urls[0])
    want(asked[0] == [(0, HEAD)], f"the first request is for {asked[0]}")
    want(len(asked) == 1 + 6 and len(units_asked(asked)) == 6, f"{len(asked)} requests for six units")
    want("; 0 faults" in place.said, "a fault is told")


def short_in_one_request(place):
    """A .bao of 12 KiB or less comes with its first bytes. A plain file takes one request for its parents, and two for its bytes."""
    urls = place.serve("bao plain")
    place.run([], urls[:1], 0)
    want(place.requests(urls[0]) == [[(0, HEAD)]], f"{place.requests(urls[0])}")
    want("; 0 faults" in place.said, "a fault is told")
    place.run(["-c", "1"], urls[1:], 0)
    want(len(place.requests(urls[1])) == 3, f"{place.requests(urls[1])}")


def near_ranges(place):
    """A server that knows one range at a time is asked for parents that are near each other at once: for some more requests than units."""
    urls = place.serve("bao@onerange")
    place.run(["-c", "1"], urls, 0)
    asked = place.requests(urls[0])
    want(len(asked) <= 2 + 8 + 6, f"{len(asked)} requests")
    want(sum(len(it) > 1 for it in asked) == 1, "several ranges were asked for more than once")


def no_unit_twice(place):
    """Mirrors that are asked for the length at the same time are asked for different units with it."""
    urls = place.serve("bao@together bao@together bao@together")
    place.run([], urls, 0)
    units = [it for url in urls for it in units_asked(place.requests(url)[1:2])]
    want(len(units) == len(set(units)) == 3, f"units that begin at {units} were asked for")


def left_alone(place):
    """A mirror that asks to wait for an hour is asked once, while another one gives all. Alone, it is asked again and again, 12 stall times apart."""
    urls = place.serve("bao@busy=3600 bao")
    place.run(["-c", "1"], urls, 0)
    want(len(place.requests(urls[0])) <= 1, f"{len(place.requests(urls[0]))} requests")
    place.out.unlink()
    urls = place.serve("bao@busy=3600")
    began = time.monotonic()
    place.run(["--stall", "0.1"], urls, 6)
    want(time.monotonic() - began > 12 * 0.1, "it wasn't left alone")
    want(len(place.requests(urls[0])) <= 5, f"{len(place.requests(urls[0]))} requests")


def read_all(terminal):
    said = b""
    with open(terminal, "rb", buffering=0) as it:
        while True:
            try:
                said += it.read(4096)
            except OSError:                 # nobody has its other end
                return said.decode()


def progress(place):
    """A line on a terminal, with bytes, rate, time left and mirrors; and none where there is no terminal."""
    urls = place.serve("bao@noise bao@after=#0")
    place.run([], urls, 0)
    want("\r" not in place.said, "progress without a terminal")
    place.out.unlink()
    ours, theirs = pty.openpty()
    ran = subprocess.Popen([*place.fetch, place.root, place.out, *urls], stdout=subprocess.DEVNULL, stderr=theirs)
    os.close(theirs)
    said = read_all(ours)
    ran.wait(LONGEST)
    want(ran.returncode == 0 and "ok 20000000" in said, said)
    want(re.search(r"\r19\.1 of 19\.1 MiB  [\d.]+ MiB/s  0 s left  2 of 2 mirrors, 1 of them last ", said), said)


def make_certificate(place, name="127.0.0.1", more=("-addext", "subjectAltName=IP:127.0.0.1")):
    pair = ["-keyout", place.folder / "key.pem", "-out", place.folder / "cert.pem"]
    words = ["openssl", "req", "-x509", "-newkey", "rsa:2048", "-nodes", "-days", "2", "-subj", f"/CN={name}", *more]
    subprocess.run([*words, *pair], check=True, capture_output=True)


def believing(place):
    return {"env": {**os.environ, "SSL_CERT_FILE": str(place.folder / "cert.pem")}}


def over_https(place):
    """A certificate is believed where SSL_CERT_FILE has who signed it. From https no redirect leads to http; from http one leads to https."""
    make_certificate(place)
    urls = place.serve("bao@tls:good plain@tls:good bao@upgrade=#0 -@good bao@tls:redirect=#3")
    place.run([], urls[:1], 1)
    for url in urls[:3]:
        place.run([], [url], 0, **believing(place))
    place.out.unlink()
    place.run([], urls[3:], 1, **believing(place))


def credentials_stay(place):
    """Passwords of ~/.netrc and a client's certificate are for a mirror's own server, and not for another one that it leads to."""
    make_certificate(place)
    place.put("client.pem", (place.folder / "cert.pem").read_bytes())
    place.put(".netrc", b"default login me password secret\n")
    env = {**believing(place)["env"], "HOME": str(place.folder)}
    urls = place.serve("bao@password=me:secret bao@redirect=#0")
    words = ["--netrc", "--cert", place.folder / "cert.pem", "--cert-key", place.folder / "key.pem"]
    place.run(words, urls[:1], 0, env=env)
    place.run(words, urls[1:], 1, env=env)
    urls = place.serve("bao@mutual:good bao@upgrade=#0")
    place.run(words, urls[:1], 0, env=env)
    place.run(words, urls[1:], 6, env=env)


def names_on_a_terminal(place):
    """What a server calls itself is printed without what a terminal would act on."""
    make_certificate(place, "a\x1b[31m\x7f", ())
    place.run([], place.serve("bao@tls:good"), 1, **believing(place))
    want("a?[31m?" in place.said and "\x1b" not in place.said, place.said)


def http2(place):
    """nginx over TLS is spoken to in HTTP/2, also for several ranges in one request."""
    make_certificate(place)
    with socket.socket() as it:
        it.bind(("127.0.0.1", 0))
        port = it.getsockname()[1]
    temps = " ".join(f"{it}_temp_path {place.folder}/tmp;" for it in ("client_body", "proxy", "fastcgi", "uwsgi", "scgi"))
    place.put("nginx.conf", (
        f"daemon off; master_process off; user root; pid {place.folder}/nginx.pid; error_log {place.folder}/error.log;\nevents {{ worker_connections 64; }}\n"
        f"http {{ {temps} log_format it '$server_protocol $status $http_range'; access_log {place.folder}/access.log it;\n"
        f"server {{ listen 127.0.0.1:{port} ssl http2; ssl_certificate cert.pem; ssl_certificate_key key.pem; root {place.folder}; }} }}\n").encode())
    nginx = subprocess.Popen(["nginx", "-p", place.folder, "-c", place.folder / "nginx.conf"], stderr=subprocess.DEVNULL)
    try:
        while nginx.poll() is None:
            with socket.socket() as it:
                if it.connect_ex(("127.0.0.1", port)) == 0:
                    break
            time.sleep(0.1)
        place.run([], [f"https://127.0.0.1:{port}/blob.bao"], 0, **believing(place))
    finally:
        nginx.terminate()
        nginx.wait()
    lines = (place.folder / "access.log").read_text().splitlines()
    want(lines and all(it.startswith("HTTP/2.0 206 ") for it in lines) and any("," in it for it in lines), f"{lines}")


def blame_is_exact(place):
    """Of four mirrors the liars alone have false bytes."""
    urls = place.serve("bao@flip bao plain@some=1 plain")
    place.run([], urls, 0)
    for url, lies in zip(urls, (True, False, True, False)):
        said = [it for it in place.said.splitlines() if it.startswith(f"bw-fetch: {url}: ") and "groups taken" in it]
        want(len(said) == 1, f"{len(said)} lines of {url}")
        want(lies or ", 0 of them false;" in said[0] and " 0 refused" in said[0], f"a true mirror is blamed: {said[0]}")


def lines_are_blamed(place):
    """Of two outboard encodings with false parents both are blamed, and no mirror is."""
    true = (place.folder / "blob.obao").read_bytes()
    for name, at in (("one", 100_000), ("two", 150_000)):
        place.put(name, true[:at] + bytes([true[at] ^ 1]) + true[at + 1:])
    urls = place.serve("bare bare")
    place.run(["--outboard", place.folder / "one", "--outboard", place.folder / "two"], urls, 0)
    for it in urls:
        want(re.search(re.escape(it) + r": \d+ bytes, 0 of them false; \d+ groups taken, 0 refused", place.said), f"{it} is blamed")
    for name in ("one", "two"):
        want(re.search(rf"/{name}: \d+ bytes, (0|64) of them false", place.said), f"{name} isn't blamed exactly")


def right_spine(chunks):
    """Which parents, in their order, are above the last chunk."""
    at = 0
    while chunks > 1:
        yield at
        left = 1 << (chunks - 1).bit_length() - 1
        at, chunks = at + left, chunks - left


def false_below_its_spine(place):
    """An outboard encoding that certifies the length, and has all else falsely, costs a part of the blob and no mirror's good name."""
    obao = bytearray((place.folder / "blob.obao").read_bytes())
    spine = set(right_spine((len(place.blob) + 1023) // 1024))
    for at in range(len(obao) // 64):
        obao[8 + 64 * at] ^= at not in spine
    place.put("one", obao)
    (url,) = place.serve("bare")
    place.run(["-c", "1", "--outboard", place.folder / "one"], [url], 1)
    (place.folder / "out.part.fetch").unlink()
    for connections in "18":
        place.run(["-c", connections, "--outboard", place.folder / "one", "--outboard", place.folder / "blob.obao"], [url], 0)
        came = came_from(place, url)
        want(came <= len(place.blob) + 1024, f"{came} bytes came of {len(place.blob)}")


def came_from(place, url):
    """How many bytes came from a mirror that gave no false one."""
    return int(re.search(re.escape(url) + r": (\d+) bytes, 0 of them false", place.said)[1])


def streamed_once(place):
    """A file whose server knows no ranges comes once, beside its first bytes."""
    encoded = (place.folder / "blob.bao").stat().st_size
    for mirror, length in (("bao@norange", encoded), ("plain@norange", len(place.blob))):
        for out in (None, "-"):
            url, = place.serve(mirror)
            place.run([], [url], 0, out)
            path = "/" + url.rpartition("/")[2]
            lines = [it.split() for it in (place.folder / "requests").read_text().splitlines()]
            asked = [it[1] for it in lines if it[2] == path]
            want(len(asked) == 2 and asked[-1] == "-", f"{mirror}: {asked}")
            came = came_from(place, url)
            want(came < length + (1 << 18), f"{mirror}: {came} bytes came of {length}")


def streamed_for_a_chunk(place):
    """What others haven't is taken out of one stream, whatever of it is found to be lacking first."""
    for modes in ("at=1500000", "some=1"):
        urls = place.serve(f"bao@{modes} bao@norange")
        place.run([], urls, 0)
        asked = place.requests(urls[1])
        want(sum(it is None for it in asked) == 1, f"{asked}")
        want("0 faults; asked last" in place.said, "a fault is told")


def streamed_and_kept(place):
    """What a stream has brought is there for the next run, but for the chunk that it has falsely."""
    place.run([], place.serve("bao@wholeat=4500000"), 1)
    want("unfinished: 1 KiB of " in place.said, "more is lacking than a chunk")
    urls = place.serve("bao")
    place.run([], urls, 0)
    came = came_from(place, urls[0])
    want(came < 100_000, f"{came} bytes came")


def a_hole_near_the_start(place):
    """A chunk that no mirror has doesn't keep a later run from the rest."""
    place.run([], place.serve("bao@at=1500000 bao@at=1500000"), 1)
    place.run([], place.serve("bao@to=2000000 bao@from=1400000"), 0)


def keeps_all_but_a_chunk(place):
    """What a failure leaves is the blob, but for the chunk that no mirror has, and the outboard encoding, with length and root behind."""
    true = place.blob + (place.folder / "blob.obao").read_bytes() + b"bw-fetch" + len(place.blob).to_bytes(8, "little") + bytes.fromhex(place.root)
    for mirrors in ("bao@at=1500000 bao@at=1500000", "plain@at=1500000"):
        place.run([], place.serve(mirrors), 1)
        left = (place.folder / "out.part.fetch").read_bytes()
        (place.folder / "out.part.fetch").unlink()
        others = [at for at, (byte, of) in enumerate(zip(left, true)) if byte != of]
        want(len(left) == len(true) and others and others[-1] - others[0] < 1024, f"{mirrors}: {len(others)} bytes are others")
        want(not any(left[others[0]:others[-1] + 1]), f"{mirrors}: what is lacking isn't a hole")


def room_for_the_blob_alone(place):
    """Where the parents have no room after the blob, the blob comes all the same."""
    most = len(place.blob) + 5000
    place.run([], place.serve("bao plain"), 0, preexec_fn=lambda: resource.setrlimit(resource.RLIMIT_FSIZE, (most, most)))


def disk_for_the_blob_alone(place):
    """The same, on a disk that is full: parents give way to the blob. It needs a mount of its own."""
    disk, mount = disk_of(place, len(place.blob) + 65_536, "disk for the blob alone")
    if not mount:
        return
    for mirrors in ("bao", "plain"):
        url, = place.serve(mirrors)
        words = f"{mount} && {shlex.join(place.fetch)} {place.root} {disk}/out {url} && cmp {disk}/out {place.folder}/blob"
        ran = subprocess.run(["unshare", "-m", "sh", "-c", words], capture_output=True, timeout=LONGEST)
        want(ran.returncode == 0, f"status {ran.returncode}: {ran.stderr.decode(errors='replace')[-2000:]}")


def disk_for_a_copy(place):
    """The same disk, beside an outboard encoding that its server gives as a whole: what it claims to be of is longer, or shorter, than the blob."""
    disk, mount = disk_of(place, len(place.blob) + 65_536, "disk for a copy")
    if not mount:
        return
    place.put("long", b"")
    for claim in (80_000_000, 8_500_000):
        place.put("long.obao", claim.to_bytes(8, "little") + bytes(64 * ((claim - 1) // 1024)))
        urls = place.serve("long@norange bao@after=#0")
        words = f"{mount} && {shlex.join(place.fetch)} {place.root} {disk}/out {' '.join(urls)} && cmp {disk}/out {place.folder}/blob"
        ran = subprocess.run(["unshare", "-m", "sh", "-c", words], capture_output=True, timeout=LONGEST)
        want(ran.returncode == 0, f"status {ran.returncode}: {ran.stderr.decode(errors='replace')[-2000:]}")


def little_memory(place):
    """300 MiB in 32 MiB of memory and 10 bytes for each 64 KiB: from mirrors of each kind, of which one lies, and from one behind 999 at whose port nobody listens. To a pipe
    it takes 64 MiB. How much less it takes hangs on how many connections send at once."""
    launcher, wanted = peak.Launcher(place.folder), (32 << 20) + 10 * len(place.blob) // 65_536
    for mirrors, out in (("bao plain", place.out), ("bao@some=1 bao", place.out), ("plain plain@some=1", place.out), ("bao plain", "-"),
                         ("bao@norange", place.out), ("plain@norange", "-"), ("bao@dead " * 999 + "bao", place.out), ("plain@dead " * 999 + "plain", place.out)):
        place.out.unlink(missing_ok=True)
        ran = launcher.run([*place.fetch, place.root, out, *place.serve(mirrors)], seconds=LONGEST)
        what = f"{len(mirrors.split())} mirrors, the last of them {mirrors.split()[-1]}"
        want(ran.status == 0, f"{what}: status {ran.status}: {ran.complaint.decode(errors='replace')[-2000:]}")
        want((ran.printed if out == "-" else place.out.read_bytes()) == place.blob, "OUT isn't the blob")
        want(ran.peak <= (64 << 20 if out == "-" else wanted), f"{what}: {ran.peak} bytes of memory")


def unwritable(place):
    """OUT in a folder that isn't there, and a pipe that nobody reads."""
    urls = place.serve("bao")
    ran = subprocess.run([*place.fetch, place.root, place.folder / "none" / "out", *urls], capture_output=True, timeout=LONGEST)
    want(ran.returncode == 3 and not place.requests(urls[0]), f"status {ran.returncode}, or the mirror was asked")
    end, other = os.pipe()
    os.close(end)
    ran = subprocess.run([*place.fetch, place.root, "-", *urls], stdout=other, stderr=subprocess.PIPE, timeout=LONGEST)
    os.close(other)
    want(ran.returncode == 3, f"status {ran.returncode}")


def kinds_of_out(place):
    """What isn't a regular file stays, and nobody is asked. Behind a link what it leads to is replaced, and keeps its permissions."""
    urls = place.serve("bao")
    os.mkfifo(place.folder / "pipe")
    (place.folder / "folder").mkdir()
    for name, target in (("nowhere", "none"), ("device", "/dev/null"), ("link", "old")):
        (place.folder / name).symlink_to(target)
    fetch = lambda name: subprocess.run([*place.fetch, place.root, place.folder / name, *urls], capture_output=True, timeout=LONGEST)
    names = sorted(os.listdir(place.folder))
    for name in ("pipe", "folder", "nowhere", "device"):
        ran = fetch(name)
        want(ran.returncode == 3 and ran.stderr.startswith(b"bw-fetch: /"), f"status {ran.returncode} of {name}")
    want(sorted(os.listdir(place.folder)) == names, "a file was made or replaced")
    want((place.folder / "pipe").is_fifo() and pathlib.Path("/dev/null").is_char_device(), "it was replaced")
    want(not place.requests(urls[0]), "the mirror was asked")
    place.put("old", b"before")
    (place.folder / "old").chmod(0o640)
    want(fetch("link").returncode == 0, "behind a link")
    want((place.folder / "link").is_symlink() and (place.folder / "old").read_bytes() == place.blob, "OUT isn't the blob")
    want((place.folder / "old").stat().st_mode & 0o777 == 0o640 and not list(place.folder.glob("*.part*")), "other permissions, or files are left")


def no_room_for_a_claim(place):
    """A length that a mirror without ranges claims, for which no file may be long enough, costs no other mirror."""
    limit = {"preexec_fn": lambda: resource.setrlimit(resource.RLIMIT_FSIZE, (20_000_000, 20_000_000))}
    place.run([], place.serve("bao@norange bao@wholeclaim=16000000000"), 0, **limit)
    place.run([], place.serve("bao@wholeclaim=16000000000 bao@norange"), 0, **limit)
    place.run([], place.serve("bao@wholeclaim=16000000000"), 3, **limit)


def no_room(place):
    """OUT that may not become as long as the blob."""
    urls = place.serve("bao")
    ran = subprocess.run([*place.fetch, place.root, place.out, *urls], capture_output=True, timeout=LONGEST,
                         preexec_fn=lambda: resource.setrlimit(resource.RLIMIT_FSIZE, (1 << 20, 1 << 20)))
    want(ran.returncode == 3 and not place.out.exists(), f"status {ran.returncode}")


def one_at_a_time(place):
    """Another bw-fetch that writes the same OUT isn't disturbed."""
    urls = place.serve("bao@half bao")
    first = subprocess.Popen([*place.fetch, "-c", "1", place.root, place.out, urls[0]], stderr=subprocess.PIPE)
    want(place.server.stdout.readline() == "blocked\n", "the mirror didn't begin to say nothing")
    ran = subprocess.run([*place.fetch, place.root, place.out, urls[1]], capture_output=True, timeout=LONGEST)
    want(ran.returncode == 3, f"status {ran.returncode}")
    want((place.folder / "out.part.fetch").exists(), "the other's OUT.part.fetch is gone")
    first.send_signal(signal.SIGINT)
    first.communicate(timeout=LONGEST)
    want(first.returncode == 7, f"status {first.returncode}")


def usage(place):
    root, out, url = place.root, place.out, "http://127.0.0.1:1/blob.bao"
    for words in ([], [root], [root, out], [root, "", url], [root[1:], out, url], ["g" + root[1:], out, url], ["-c", "0", root, out, url], ["-c", "9", root, out, url],
                  ["--stall", "0", root, out, url], ["--stall", "x", root, out, url], ["--max", "-1", root, out, url], ["--none", root, out, url],
                  ["--key-file", place.folder / "blob", root, out, url], ["--context", b"\xff", root, out, url],
                  ["--key-file", place.folder / "none", "--context", "a", root, out, url], ["--progress", "77", root, out, url], [root, out, *[url] * 1001]):
        ran = subprocess.run([*place.fetch, *words], capture_output=True, timeout=LONGEST)
        want(ran.returncode == 2 and not ran.stdout and ran.stderr, f"status {ran.returncode} of {words}")
    for words in (["--key-file", place.folder / "none", root, out, url], ["--mirrors", place.folder / "none", root, out]):
        ran = subprocess.run([*place.fetch, *words], capture_output=True, timeout=LONGEST)
        want(ran.returncode == 3, f"status {ran.returncode} of {words}")
    ran = subprocess.run([*place.fetch, "--help"], capture_output=True, timeout=LONGEST)
    want(ran.returncode == 0 and ran.stdout.startswith(b"usage: bw-fetch") and not ran.stderr, "help")


# function, length, key
LONGER = [
    (resumes, 9_000_000, ""), (the_rest_alone, 9_000_000, ""), (local_alone, 3_000_000, ""), (part_is_not_trusted, 3_000_000, ""), (keeps_salvage, 3_000_000, ""),
    (keeps_old_out, 300_000, ""), (sigint, 9_000_000, ""), (sigterm, 9_000_000, ""), (keyed, 300_000, KEY), (under_a_context, 300_000, CONTEXT), (mirrors_in_a_file, 300_000, ""),
    (outboard_elsewhere, 3_000_000, ""), (two_outboards, 3_000_000, ""), (outboard_behind_others, 3_000_000, ""), (behind_a_hundred, 3_000_000, ""), (local_mirrors, 3_000_000, ""), (blame_is_exact, 20_000_000, ""),
    (unwritable, 3_000_000, ""), (kinds_of_out, 300_000, ""), (no_room, 3_000_000, ""), (no_room_for_a_claim, 3_000_000, ""), (one_at_a_time, 9_000_000, ""), (usage, 10, ""), (one_round_trip, 6_000_000, ""), (short_in_one_request, 10_000, ""), (no_unit_twice, 6_000_000, ""),
    (near_ranges, 6_000_000, ""), (sighup, 9_000_000, ""), (sigkill, 9_000_000, ""), (a_full_disk_keeps, 9_000_000, ""), (own_part_as_a_mirror, 9_000_000, ""),
    (resume_asks_for_the_rest, 9_000_000, ""), (damaged_part, 9_000_000, ""), (right_out, 300_000, ""), (read_only_out, 300_000, ""), (no_outboard_ends, 300_000, ""), (queries, 300_000, ""),
    (silent_name_server, 300_000, ""), (closed_output, 20_000, ""), (part_of_others, 300_000, ""), (pipe_that_nobody_reads, 3_000_000, ""),
    (few_descriptors, 3_000_000, ""), (no_secrets, 300_000, ""), (private_redirects, 300_000, ""), (bounds, 400_000, ""), (local_first, 3_000_000, ""),
    (many_at_once, 20_000, ""), (lines_left_out, 20_000, ""), (headers, 300_000, ""), (progress_in_json, 300_000, ""), (any_name_in_json, 300_000, ""),
    (left_alone, 3_000_000, ""), (progress, 20_000_000, ""), (lines_are_blamed, 3_000_000, ""), (false_below_its_spine, 20_000_000, ""),
    (streamed_once, 9_000_000, ""), (streamed_for_a_chunk, 9_000_000, ""), (streamed_and_kept, 9_000_000, ""),
    (a_hole_near_the_start, 9_000_000, ""), (keeps_all_but_a_chunk, 3_000_000, ""),
    (room_for_the_blob_alone, 3_000_000, ""), (disk_for_the_blob_alone, 9_000_000, ""), (disk_for_a_copy, 9_000_000, ""), (little_memory, 300 << 20, ""),
]
# function, length, programs that it needs
WITH_PROGRAMS = [(over_https, 300_000, ["openssl"]), (credentials_stay, 300_000, ["openssl"]), (names_on_a_terminal, 300_000, ["openssl"]), (http2, 6_000_000, ["openssl", "nginx"])]


def isolate():
    """Begins anew in a network of its own, where there is nothing but loopback; says so where that isn't allowed."""
    os.environ["no_proxy"] = "127.0.0.1"
    if os.environ.get("BW_FETCH_ALONE"):
        with socket.socket(socket.AF_INET, socket.SOCK_DGRAM) as it:
            request = struct.pack("16sh", b"lo", 1)         # IFF_UP
            fcntl.ioctl(it, 0x8914, request)                # SIOCSIFFLAGS
            address = struct.pack("16sHH4s8x", b"lo:1", socket.AF_INET, 0, socket.inet_aton("198.51.100.1"))
            fcntl.ioctl(it, 0x8916, address)                # SIOCSIFADDR: a public one
        return
    words = ["unshare", "-rn", sys.executable]
    try:
        allowed = subprocess.run([*words, "-c", "pass"], capture_output=True).returncode == 0
    except OSError:
        allowed = False
    if allowed:
        os.environ["BW_FETCH_ALONE"] = "1"
        os.execvp(words[0], [*words, *sys.argv])
    print("hostile.py: no network of its own is allowed here: the machine's loopback is used")


def try_one(tools, row):
    """What is wrong with a case, or None."""
    name, length, key, run = row
    with tempfile.TemporaryDirectory() as folder:
        place = Place(folder, tools, length, key)
        try:
            run(place)
            return None
        except (Failure, OSError, subprocess.TimeoutExpired) as it:
            return f"{name}: {it}\n{place.said[-3000:]}"
        finally:
            place.end()


def is_wanted(name, words):
    """A word asks for the cases with it in their name, and a word with - before it leaves them out."""
    asked = [it for it in words if not it.startswith("-")]
    return not any(it[1:] in name for it in words if it.startswith("-")) and (not asked or any(it in name for it in asked))


def main(fetch, mkbao, *words):
    isolate()
    for it in (signal.SIGINT, signal.SIGTERM, signal.SIGHUP):
        signal.signal(it, signal.SIG_DFL)               # a shell may have them ignored, and bw-fetch leaves them so
    tools = pathlib.Path(fetch).resolve(), pathlib.Path(mkbao).resolve()
    rows = [(name, length, "", lambda place, row=row: run_case(place, *row)) for name, length, *row in CASES]
    rows += [(it.__name__.replace("_", " "), length, key, it) for it, length, key in LONGER]
    for it, length, needs in WITH_PROGRAMS:
        missing = [name for name in needs if not shutil.which(name)]
        if missing:
            print(f"hostile.py: not run, since {' and '.join(missing)} isn't here: {it.__name__.replace('_', ' ')}")
        else:
            rows.append((it.__name__.replace("_", " "), length, "", it))
    rows = [it for it in rows if is_wanted(it[0], words)]
    with concurrent.futures.ThreadPoolExecutor(SIDE_BY_SIDE) as pool:
        wrong = [it for it in pool.map(lambda row: try_one(tools, row), rows) if it]
    for it in wrong:
        print(f"hostile.py: {it}")
    print(f"{len(rows)} cases passed" if not wrong else f"{len(wrong)} of {len(rows)} cases failed")
    return 1 if wrong else 0


if __name__ == "__main__":
    sys.exit(main(*sys.argv[1:]) if len(sys.argv) > 2 else __doc__)
