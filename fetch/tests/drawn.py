#!/usr/bin/env python3
"""Runs bw-fetch against drawn mirrors, and with each request for memory refused.

    drawn.py BW_FETCH MKBAO COUNT [SEED]       COUNT runs against one to three drawn mirrors of a blob of up to 4 MB
    drawn.py --refuse BW_FETCH MKBAO           the smallest fetch, with the Nth request for memory refused, for each N

Of a drawn fetch either OUT is the blob and the status is 0, or the status is 1 or 6 and there is no OUT; it has to be 0 where a drawn mirror is true. A drawn mirror
changes, cuts, moves, splits and lengthens what it says, or stops, at a drawn byte and a drawn moment; an earlier run may have left something, true or not. A draw
hangs on its number alone, which is printed where a run fails. `drawn.py BW_FETCH MKBAO 1 SEED` does that one again. Draws are parted among as many processes as
there are processors, each with mirrors of its own; what is printed doesn't hang on that.
"""
import concurrent.futures
import multiprocessing
import os
import pathlib
import random
import subprocess
import sys
import tempfile
import time

sys.dont_write_bytecode = True
import hostile
import mirrors

SIDE_BY_SIDE = 16                       # in each process
LONGEST = 1000
LENGTHS = [0, 1, 1023, 1024, 1025, 4096, 65_535, 65_536, 65_537, 100_000, 131_073, 196_608, 1_048_577, 4_000_000]
TRUE = ("good", "onerange", "severalwhole", "several416", "reversed", "norange")
WHOLE = ("never", "e404", "e500", "loop", "close", "nothttp", "longheader", "shifted", "badparts", "noise", "zeros", "unplaced", "gzip", "longer", "huge")


class Drawn(mirrors.Mirror):
    """A mirror whose address tells its draw: /SEED-NUMBER-LENGTH/FILE."""

    def setup(self):
        super().setup()
        self.mode, self.value = "good", ""

    def draw(self):
        name, _, file = self.path[1:].partition("/")
        seed, number, length = (int(it) for it in name.split("-"))
        return *manner(seed, number), f"{length}{file[4:]}"

    def answer(self):
        mode, dice, file = self.draw()
        self.path = "/" + file
        self.dice, self.drawn = dice, mode
        self.mode, self.value = ("good", "") if mode in ACTS else (mode, "")
        super().answer()

    def send_body(self, code, kind, place, body):
        act = ACTS.get(self.drawn)
        if act:
            act(self, code, kind, place, bytearray(body))
        else:
            super().send_body(code, kind, place, body)


def cut(it, code, kind, place, body):
    """Ends within the body."""
    it.send_response(code)
    it.send_header("Content-Type", kind)
    if place:
        it.send_header("Content-Range", place)
    it.send_header("Content-Length", str(len(body)))
    it.end_headers()
    it.wfile.write(body[:it.dice.randrange(len(body) + 1)])
    it.close_connection = True


def changed(it, code, kind, place, body):
    """One to four bytes of an answer are others."""
    for _ in range(it.dice.randrange(1, 5)):
        if body:
            body[it.dice.randrange(len(body))] ^= 1 + it.dice.randrange(255)
    mirrors.Mirror.send_body(it, code, kind, place, body)


def sometimes(it, code, kind, place, body):
    """As before, in one of three answers."""
    (changed if it.dice.random() < 0.34 else mirrors.Mirror.send_body)(it, code, kind, place, body)


def shorter(it, code, kind, place, body):
    """Fewer bytes than were asked for, with the length that belongs to them."""
    mirrors.Mirror.send_body(it, code, kind, place, body[:it.dice.randrange(len(body) + 1)])


def longer(it, code, kind, place, body):
    """More bytes than were asked for."""
    mirrors.Mirror.send_body(it, code, kind, place, body + it.dice.randbytes(it.dice.randrange(1, 200_000)))


def moved(it, code, kind, place, body):
    """Bytes that were moved by some."""
    by = it.dice.randrange(1, 100)
    mirrors.Mirror.send_body(it, code, kind, place, body[by:] + body[:by])


def pieces(it, code, kind, place, body):
    """True, in many small writes."""
    it.send_response(code)
    it.send_header("Content-Type", kind)
    if place:
        it.send_header("Content-Range", place)
    it.send_header("Content-Length", str(len(body)))
    it.end_headers()
    while body:
        size = it.dice.randrange(1, 20_000)
        it.wfile.write(body[:size])
        it.wfile.flush()
        body = body[size:]


def other_range(it, code, kind, place, body):
    """A Content-Range that isn't one."""
    words = ["bytes 5-2/9", "bytes */9", "bytes 0-18446744073709551615/*", "lines 1-2/3", "bytes 18446744073709551000-18446744073709551614/*", "", "bytes 0-"]
    mirrors.Mirror.send_body(it, 206, "application/octet-stream", it.dice.choice(words), body)


def other_parts(it, code, kind, place, body):
    """A body of parts that is none."""
    junk = [b"Content-Range: bytes 0-99999999999/9\r\n\r\n", b"x" * 700, b"\r\n\r\n", b"--THIS--", b"Content-Range: bytes 9-1/9\r\n", it.dice.randbytes(300), bytes(body)]
    text = b"".join(it.dice.choice(junk) for _ in range(it.dice.randrange(1, 9)))
    mirrors.Mirror.send_body(it, 206, "multipart/byteranges; boundary=THIS", None, text)


def stops(it, code, kind, place, body):
    """Says nothing more, at a drawn byte."""
    it.send_response(code)
    it.send_header("Content-Type", kind)
    if place:
        it.send_header("Content-Range", place)
    it.send_header("Content-Length", str(len(body) + 1))
    it.end_headers()
    it.wfile.write(body[:it.dice.randrange(len(body) + 1)])
    it.wfile.flush()
    it.say_nothing()


def busy(it, code, kind, place, body):
    """Asks to wait for no time, or for none that can be told; and every other time it gives what is asked for."""
    if it.dice.random() < 0.5:
        return mirrors.Mirror.send_body(it, code, kind, place, body)
    words = ["0", "soon", "", "-1", "1 2", "Thu, 01 Jan 1970 00:00:00 GMT", "x" * 3000]
    it.ask_to_wait(it.dice.choice((429, 503)), it.dice.choice(words))


ACTS = {it.__name__: it for it in (busy, cut, changed, sometimes, shorter, longer, moved, pieces, other_range, other_parts, stops)}
TRUE_ACTS = ("pieces",)


def manner(seed, number):
    """How mirror `number` of a draw behaves, and its dice."""
    dice = random.Random(f"{seed} {number}")
    kind = dice.random()
    if kind < 0.25:
        return dice.choice(TRUE), dice
    if kind < 0.55:
        return dice.choice(WHOLE if dice.random() < 0.9 else WHOLE[:1]), dice
    return dice.choice([it for it in ACTS if it != "stops" or dice.random() < 0.3]), dice


def is_true(mode):
    return mode in TRUE or mode in TRUE_ACTS


class Blobs:
    """A blob of each length, with its encodings and its root."""

    def __init__(self, folder, mkbao):
        self.folder, self.of = folder, {}
        for length in LENGTHS:
            blob = random.Random(length).randbytes(length)
            (folder / str(length)).write_bytes(blob)
            root = subprocess.run([mkbao, folder / str(length)], check=True, capture_output=True, text=True).stdout.strip()
            self.of[length] = blob, root


def left_before(dice, length, root, folder):
    """An OUT.part.fetch: a true one of which some bytes are others, or noise. Its length and root are mostly true."""
    outboard = (folder / f"{length}.obao").read_bytes()
    text = bytearray((folder / f"{length}").read_bytes() + outboard if dice.random() < 0.8 else dice.randbytes(length + len(outboard)))
    for _ in range(dice.randrange(6)):
        at = dice.randrange(len(text))
        end = min(len(text), at + dice.choice((1, 64, 5000)))
        text[at:end] = bytes(end - at)
    text += b"bw-fetch" + length.to_bytes(8, "little") + bytes.fromhex(root)
    return bytes(text[:len(text) if dice.random() < 0.8 else dice.randrange(len(text) + 1)])


def run_drawn(seed, fetch, blobs, port):
    """None, or what is wrong."""
    dice = random.Random(seed)
    length = dice.choice(LENGTHS)
    blob, root = blobs.of[length]
    count = dice.randrange(1, 4)
    kinds = [dice.choice(["blob.bao", "blob"]) for _ in range(count)]
    urls = [f"http://127.0.0.1:{port}/{seed}-{i}-{length}/{kind}" for i, kind in enumerate(kinds)]
    modes = [manner(seed, i)[0] for i in range(count)]
    must = any(is_true(it) for it in modes)
    pipe = dice.random() < 0.2
    with tempfile.TemporaryDirectory() as folder:
        out = pathlib.Path(folder) / "out"
        if dice.random() < 0.25:
            part = pathlib.Path(folder) / "out.part.fetch"
            part.write_bytes(left_before(dice, length, root, blobs.folder))
            part.chmod(0o600)
        words = [fetch, "-v", "--stall", "60" if must else "0.5", "--patience", "60" if must else "0.2", "-c", str(dice.randrange(1, 4)), root, "-" if pipe else out, *urls]
        ran = subprocess.run(words, capture_output=True, timeout=LONGEST, env={**os.environ, "BW_DELAYS": str(seed)})
        got = ran.stdout if pipe else out.read_bytes() if out.exists() else None
    right = ran.returncode == 0 and got == blob
    none = ran.returncode in (1, 6) and (got is None or pipe and blob.startswith(got)) and not must
    if right or none:
        return None
    return f"draw {seed}, {length} bytes, {list(zip(kinds, modes))}: status {ran.returncode}\n{ran.stderr.decode(errors='replace')[-2000:]}"


def run_share(fetch, blobs, seeds):
    """What is wrong with some draws, by their numbers. In a process of its own, with mirrors of its own."""
    them = mirrors.Mirrors(blobs.folder, ["good"], Drawn)
    with concurrent.futures.ThreadPoolExecutor(SIDE_BY_SIDE) as pool:
        found = list(pool.map(lambda seed: (seed, run_drawn(seed, fetch, blobs, them.ports[0])), seeds))
    them.end()
    return [it for it in found if it[1]]


def drawn(fetch, mkbao, count, first="1"):
    seeds = range(int(first), int(first) + int(count))
    processes = len(os.sched_getaffinity(0))
    with tempfile.TemporaryDirectory() as folder:
        blobs = Blobs(pathlib.Path(folder), mkbao)
        with concurrent.futures.ProcessPoolExecutor(processes, multiprocessing.get_context("fork")) as pool:
            shares = [pool.submit(run_share, fetch, blobs, seeds[at::processes]) for at in range(processes)]
            wrong = sorted(it for share in shares for it in share.result())
    for _, it in wrong[:5]:
        print(it)
    print(f"{count} draws passed" if not wrong else f"{len(wrong)} of {count} draws failed")
    return 1 if wrong else 0


def at_a_place(fetch, mkbao, mirrors, run, *words):
    """What `run` answers, with a folder and mirrors of its own."""
    with tempfile.TemporaryDirectory() as folder:
        place = hostile.Place(folder, (fetch, mkbao), 20_000)
        try:
            return run(place, fetch, place.serve(mirrors), *words)
        finally:
            place.end()


def can_serve(fetch):
    ran = subprocess.run([fetch, "--serve", "0", "0" * 64, fetch.parent / "none"], capture_output=True, text=True)
    return "without libmicrohttpd" not in ran.stderr


def refuse(fetch, mkbao):
    rows = [(kind, tail) for kind in ("bao", "plain", *["bao plain"] * can_serve(fetch)) for tail in ("", "+")]
    with concurrent.futures.ThreadPoolExecutor(len(rows)) as pool:
        asked = sum(pool.map(lambda row: at_a_place(fetch, mkbao, row[0], refuse_each, row[1]), rows))
    at_a_place(fetch, mkbao, "bao plain", refuse_flush)
    at_a_place(fetch, mkbao, "bao@at=5000", other_ends)
    at_a_place(fetch, mkbao, "bao", out_hangs)
    for fault in ("https", "threads", "hang"):
        at_a_place(fetch, mkbao, "bao plain", in_spite_of, fault)
    print(f"{asked} refusals passed")
    return 0


def refuse_flush(place, fetch, urls):
    """A disk that can't be flushed: OUT is as it was, since it is renamed after that."""
    place.put("out", b"before")
    ran = subprocess.run([fetch, place.root, place.out, *urls], capture_output=True, timeout=LONGEST, env={**os.environ, "BW_REFUSE": "fsync"})
    left = sorted(it.name for it in place.folder.glob("out*"))
    if ran.returncode != 3 or place.out.read_bytes() != b"before" or left != ["out", "out.part.fetch"]:
        sys.exit(f"drawn.py: fsync refused: status {ran.returncode}, {left}")


def other_ends(place, fetch, urls):
    """Another run that puts its OUT in place just when OUT.part.fetch was opened: a run that fails leaves that OUT."""
    place.put("out.part.fetch", b"whole")
    (place.folder / "out.part.fetch").chmod(0o600)
    settings = {"BW_REFUSE": "flock", "BW_FROM": str(place.folder / "out.part.fetch"), "BW_TO": str(place.out)}
    ran = subprocess.run([fetch, place.root, place.out, *urls], capture_output=True, timeout=LONGEST, env={**os.environ, **settings})
    if ran.returncode != 1 or place.out.read_bytes() != b"whole":
        sys.exit(f"drawn.py: another run ended: status {ran.returncode}\n{ran.stderr.decode(errors='replace')[-2000:]}")


def in_spite_of(place, fetch, urls, fault):
    """A libcurl without https, a process that may start no thread, and a local file whose read never ends cost no fetch over http."""
    place.put("hangs.bao", (place.folder / "blob.bao").read_bytes())
    words = [fetch, "--stall", "1", place.root, place.out, *([place.folder / "hangs.bao"] if fault == "hang" else []), *urls]
    ran = subprocess.run(words, capture_output=True, timeout=LONGEST, env={**os.environ, "BW_REFUSE": fault})
    if ran.returncode or place.out.read_bytes() != place.blob:
        sys.exit(f"drawn.py: {fault}: status {ran.returncode}\n{ran.stderr.decode(errors='replace')[-2000:]}")


def out_hangs(place, fetch, urls):
    """An OUT whose read never ends holds up no other line of a manifest, and no signal."""
    place.put("hangs.bao", b"?")
    place.put("manifest", "".join(f"{place.root} {place.folder}/{it} {urls[0]}\n" for it in ("hangs.bao", "out")).encode())
    ran = subprocess.Popen([fetch, "--manifest", place.folder / "manifest"], stderr=subprocess.DEVNULL, env={**os.environ, "BW_REFUSE": "hang"})
    try:
        end = time.monotonic() + LONGEST
        while not place.out.exists() and time.monotonic() < end:
            time.sleep(0.02)
        ran.terminate()
        if ran.wait(LONGEST) != 7 or place.out.read_bytes() != place.blob:
            sys.exit(f"drawn.py: a read of OUT hangs: status {ran.returncode}")
    finally:
        ran.kill()


def refuse_each(place, fetch, urls, tail):
    """How many requests for memory were refused, one in each run. Of two mirrors the first is a peer, and what comes is served."""
    more = ["--serve", "0", "--origin-last", "0.1", "--peer", urls.pop(0)] if len(urls) > 1 else []
    for number in range(1, 100_000):
        ran = subprocess.run([fetch, "-c", "1", "--retries", "1", "--patience", "0", *more, place.root, place.out, *urls], capture_output=True, timeout=LONGEST, env={**os.environ, "BW_REFUSE": f"{number}{tail}"})
        got = place.out.read_bytes() if place.out.exists() else None
        fine = (ran.returncode == 0 and got == place.blob) or (ran.returncode in (1, 3, 4, 6) and got is None)
        if not fine:
            sys.exit(f"drawn.py: request {number}{tail} for memory refused, {urls}: status {ran.returncode}\n{ran.stderr.decode(errors='replace')[-2000:]}")
        for it in place.folder.glob("out*"):
            it.unlink()
        if not ran.stderr.endswith(b"refused\n"):
            return number - 1
    sys.exit("drawn.py: there is no end of requests for memory")


def main(words):
    hostile.isolate()
    if words[0] == "--refuse":
        return refuse(*(pathlib.Path(it).resolve() for it in words[1:3]))
    fetch, mkbao = (pathlib.Path(it).resolve() for it in words[:2])
    return drawn(fetch, mkbao, *words[2:4])


if __name__ == "__main__":
    sys.exit(main(sys.argv[1:]) if len(sys.argv) > 3 else __doc__)
