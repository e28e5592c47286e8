#!/usr/bin/env python3
"""Runs bw-fetch as a server, and several of it that fetch from each other.

    peers.py BW_FETCH MKBAO [NAME .. | -NAME ..]

Whatever is served is compared with the blob and its encoding. Its last line is 'N cases passed'.
"""
import concurrent.futures
import contextlib
import http.client
import itertools
import os
import pathlib
import random
import re
import signal
import socket
import subprocess
import sys
import tempfile
import threading
import time

sys.dont_write_bytecode = True
import hostile
import mirrors
from hostile import Place, want

LENGTHS = [0, 1, 1023, 1024, 1025, 65_536, 65_537, 131_073, 1_048_577, 3_000_000]
GROUP = 65_536
LONGEST = 600                           # seconds, far above what anything has to take


@contextlib.contextmanager
def serving(place, *words, out=None, root=None, **more):
    """A bw-fetch that serves at some port, with the port and the process."""
    out, found = out or place.out, None
    ran = subprocess.Popen([*place.fetch, "--serve", "127.0.0.1:0", *map(str, words[:words.index("--")] if "--" in words else words), root or place.root, out,
                            *(words[words.index("--") + 1:] if "--" in words else ())], stderr=subprocess.PIPE, text=True, **more)
    try:
        for line in ran.stderr:
            found = re.search(r"serves http://127\.0\.0\.1:(\d+)/", line)
            if found:
                break
        want(found, f"it doesn't serve: {line}")
        said = ran.said = []
        reader = threading.Thread(target=lambda: said.extend(ran.stderr))
        reader.start()
        yield int(found[1]), ran
    finally:
        if ran.poll() is None:
            ran.terminate()
            try:
                ran.wait(LONGEST)
            except subprocess.TimeoutExpired:
                ran.kill()
        ran.wait()
        if found:
            reader.join()
        ran.stderr.close()
    want(ran.returncode in (0, 1, 6, 7) and not any("Sanitizer" in it or "runtime error" in it for it in said), f"status {ran.returncode}\n{''.join(said)[-3000:]}")


def ask(port, path, asked=None, method="GET", more={}):
    """Status, headers and body."""
    it = http.client.HTTPConnection("127.0.0.1", port, timeout=LONGEST)
    try:
        it.request(method, path, headers={**({"Range": asked} if asked else {}), **more})
        answer = it.getresponse()
        return answer.status, answer.headers, answer.read()
    finally:
        it.close()


def groups_told(headers):
    """The groups that a server says are there."""
    each, digits = headers["Berylwool-Has"].split()
    want(each == "1", "a bit is of more than a group")
    return {4 * at + bit for at, digit in enumerate(digits) for bit in range(4) if int(digit, 16) >> bit & 1}


def make_seed(place):
    """OUT and OUT.obao."""
    place.put("out", place.blob)
    place.put("out.obao", (place.folder / "blob.obao").read_bytes())


def drawn_ranges(dice, size, count):
    """Ranges, from their first byte to behind their last."""
    for _ in range(count if size else 0):
        start = dice.randrange(size)
        yield start, min(size, start + dice.choice((1, 2, 63, 1024, 5000, GROUP, 300_000)))


# --- A finished file

def serves_all(tools):
    """Each byte of a finished file of each length, in both forms, whole and by ranges."""
    for length in LENGTHS:
        with tempfile.TemporaryDirectory() as folder:
            place = Place(folder, tools, length)
            make_seed(place)
            with serving(place) as (port, _):
                wait_for(port, place, lambda headers: True)
                for tail, text in (("", place.blob), (".bao", (place.folder / "blob.bao").read_bytes())):
                    look_at_all(port, f"/{place.root}{tail}", text, place.root)


def look_at_all(port, path, text, root):
    size = len(text)
    status, headers, body = ask(port, path)
    want((status, body) == (200, text), f"{path}: {status}")
    want(headers["ETag"] == f'"{root}"' and headers["Accept-Ranges"] == "bytes", f"{path}: {headers}")
    status, headers, body = ask(port, path, method="HEAD")
    want((status, body, headers["Content-Length"]) == (200, b"", str(size)), f"{path}: HEAD {status}")
    for start, end in drawn_ranges(random.Random(size), size, 60):
        status, headers, body = ask(port, path, f"bytes={start}-{end - 1}")
        want((status, body) == (206, text[start:end]), f"{path} {start}-{end}: {status}")
        want(headers["Content-Range"] == f"bytes {start}-{end - 1}/{size}", f"{path}: {headers}")
    for asked, first in (("bytes=0-", 0), ("bytes=-5", max(0, size - 5)), ("bytes=0-99999999999999", 0)):
        status, _, body = ask(port, path, asked)
        want((status, body) == ((206, text[first:]) if size else (416, b"")), f"{path} {asked}: {status}")
    for asked in (f"bytes={size}-", f"bytes={size + 7}-{size + 9}", "bytes=-0"):
        status, headers, body = ask(port, path, asked)
        want((status, body, headers["Content-Range"]) == (416, b"", f"bytes */{size}"), f"{path} {asked}: {status}")
    for asked in ("bytes=", "bytes=5-2", "lines=1-2", "bytes=x", "bytes=1", "bytes=--1", "bytes=1-2x", "bytes=-", "bytes=1234567890123456789012-"):
        status, _, body = ask(port, path, asked)
        want((status, body) == (200, text), f"{path} {asked}: {status}")
    if size > 10:
        want(ask(port, path, "bytes=3-7,9-9")[2] == text[3:8], f"{path}: of two ranges the first")
        want(ask(port, path, "bytes=3-7", more={"If-Range": '"other"'})[0] == 200, f"{path}: If-Range")
        want(ask(port, path, "bytes=3-7", more={"If-Range": f'"{root}"'})[0] == 206, f"{path}: If-Range of the root")


def wait_for(port, place, is_there):
    """Until a server says something of what is there."""
    end = time.monotonic() + LONGEST
    while time.monotonic() < end:
        status, headers, _ = ask(port, f"/{place.root}.bao", method="HEAD")
        if (status == 200 or "Berylwool-Has" in headers) and is_there(headers):
            return headers
        want(status in (200, 503), f"HEAD: {status}")
        time.sleep(0.02)
    raise hostile.Failure("it never is there")


def nothing_else(tools, length=200_000):
    """No other path and no other method; a file that hasn't the root isn't served, and parents that aren't the root's aren't either."""
    with tempfile.TemporaryDirectory() as folder:
        place = Place(folder, tools, length)
        make_seed(place)
        with serving(place) as (port, _):
            wait_for(port, place, lambda headers: True)
            name = f"/{place.root}"
            for path in ("/", "/out", "/../out", f"{name}/", f"{name}.obao", f"{name}.ba", f"{name}.baoo", f"/{name}", f"{name[:-1]}", f"{name}%2e%2e", "/" + "0" * 64):
                want(ask(port, path)[0] == 404, f"{path} is there")
            for method in ("POST", "PUT", "DELETE", "OPTIONS", "TRACE", "PATCH"):
                status, headers, _ = ask(port, name, method=method)
                want((status, headers["Allow"]) == (405, "GET, HEAD"), f"{method}: {status}")
        place.put("out.obao", b"\1" + (place.folder / "blob.obao").read_bytes()[1:])
        with serving(place) as (port, _):
            end = time.monotonic() + LONGEST
            while ask(port, name)[0] == 503 and time.monotonic() < end:
                time.sleep(0.02)
            want(ask(port, name)[2] == place.blob, "the plain file isn't served")
            want(ask(port, name + ".bao")[0] == 503, "false parents are served")
            want(ask(port, name + ".bao", "bytes=0-7")[0] == 206, "the length isn't served")
        place.put("out", place.blob[:-1] + b"?")
        ran = subprocess.run([*place.fetch, "--serve", "127.0.0.1:0", place.root, place.out], capture_output=True, timeout=LONGEST)
        want(ran.returncode == 1, f"another file: status {ran.returncode}")


def words_of_serve(tools):
    """What --serve is told."""
    with tempfile.TemporaryDirectory() as folder:
        place = Place(folder, tools, 5000)
        make_seed(place)
        for where, status in (("nowhere:1", 3), ("127.0.0.1:99999", 3), (":0", 3), ("127.0.0.1:", 3), ("", 3), ("127.0.0.1:x", 3), ("8.8.8.8:0", 3), ("[::1", 3)):
            ran = subprocess.run([*place.fetch, "--serve", where, "--serve-for", "0", place.root, place.out], capture_output=True, timeout=LONGEST)
            want(ran.returncode == status, f"--serve {where}: status {ran.returncode}")
        for words in (["--serve", "0", place.root, "-"], ["--serve", "0", "--check", place.root, place.out], ["--serve", "0", "--serve-for", "soon", place.root, place.out]):
            want(subprocess.run([*place.fetch, *words], capture_output=True, timeout=LONGEST).returncode == 2, f"{words}")
        for number in (signal.SIGTERM, signal.SIGINT):
            with serving(place, "--serve-for", "forever") as (port, ran):
                wait_for(port, place, lambda headers: any("ok " in it for it in ran.said))
                ran.send_signal(number)
                want(ran.wait(LONGEST) == 0, f"signal {number}: status {ran.returncode}")
        ran = subprocess.run([*place.fetch, "--serve", "0", "--serve-for", "0.1", place.root, place.out], capture_output=True, timeout=LONGEST)
        want(ran.returncode == 0, f"--serve-for: status {ran.returncode}")


# --- While it comes

def serves_what_is_there(tools, length=9_000_000):
    """Of an unfinished file exactly what is there: the rest is 503, in both forms, and no byte of a liar's is served."""
    with tempfile.TemporaryDirectory() as folder:
        place = Place(folder, tools, length)
        try:
            urls = place.serve("bao@to=5000000 bao@some=3 bao@never")
            with serving(place, "--stall", "600", "-c", "1", "--", *urls) as (port, ran):
                headers = wait_for(port, place, lambda headers: len(groups_told(headers)) > 60)
                there = groups_told(headers)
                look_at_some(port, place, there)
                want(ran.poll() is None, "it has ended")
                ran.terminate()
                want(ran.wait(LONGEST) == 7, f"status {ran.returncode}")
            with serving(place, "--stall", "600", "--", place.serve("bao@never")[0]) as (port, _):
                headers = wait_for(port, place, lambda headers: len(groups_told(headers)) >= len(there) - 1)
                look_at_some(port, place, groups_told(headers))
        finally:
            place.end()


def look_at_some(port, place, there):
    bao, dice, found = (place.folder / "blob.bao").read_bytes(), random.Random(1), set()
    for group in there:
        start, end = group * GROUP, min(len(place.blob), (group + 1) * GROUP)
        status, _, body = ask(port, f"/{place.root}", f"bytes={start}-{end - 1}")
        want((status, body) == (206, place.blob[start:end]), f"group {group}: {status}")
    for tail, text in (("", place.blob), (".bao", bao)):
        for start, end in drawn_ranges(dice, len(text), 200):
            status, headers, body = ask(port, f"/{place.root}{tail}", f"bytes={start}-{end - 1}")
            found.add(status)
            want((status, body) == (206, text[start:end]) or (status, body, headers["Retry-After"]) == (503, b"", "1"), f"{tail} {start}-{end}: {status}")
    want(found == {206, 503}, f"statuses {found}")
    want(ask(port, f"/{place.root}")[0] == 503, "all is there")
    last = len(bao) - 1
    want(ask(port, f"/{place.root}.bao", f"bytes={last}-")[2] == bao[last:], "the end, which certifies the length, isn't there")


def serves_to_the_end(tools, length=3_000_000):
    """Afterwards all is served, OUT.obao is the outboard encoding, and the next run serves it again."""
    with tempfile.TemporaryDirectory() as folder:
        place = Place(folder, tools, length)
        try:
            urls = place.serve("plain bao@flip bao")
            bao = (place.folder / "blob.bao").read_bytes()
            for again in urls, []:
                with serving(place, "--serve-for", "forever", "--", *again) as (port, ran):
                    end = time.monotonic() + LONGEST
                    while ask(port, f"/{place.root}.bao")[0] == 503 and time.monotonic() < end:
                        time.sleep(0.02)
                    look_at_all(port, f"/{place.root}.bao", bao, place.root)
                    look_at_all(port, f"/{place.root}", place.blob, place.root)
                    want(place.out.read_bytes() == place.blob, "OUT isn't the blob")
                    want((place.folder / "out.obao").read_bytes() == (place.folder / "blob.obao").read_bytes(), "OUT.obao isn't its outboard encoding")
        finally:
            place.end()


# --- Clients as hostile as mirrors are

def raw(port, text, seconds=LONGEST):
    """All that comes for some bytes."""
    with socket.create_connection(("127.0.0.1", port), seconds) as it:
        it.sendall(text)
        got = b""
        with contextlib.suppress(ConnectionError, TimeoutError):
            while True:
                more = it.recv(65536)
                if not more:
                    break
                got += more
        return got


def hostile_requests(tools, length=20_000_000):
    """Ranges by the thousand, headers without an end, half-open connections and readers that read nothing cost neither memory nor the others."""
    with tempfile.TemporaryDirectory() as folder:
        place = Place(folder, tools, length)
        make_seed(place)
        with serving(place) as (port, ran):
            wait_for(port, place, lambda headers: True)
            name = f"/{place.root}.bao"
            before, held = memory_of(ran.pid), []
            many = ",".join(f"{2 * at}-{2 * at}" for at in range(1000))
            status, _, body = ask(port, name, f"bytes={many}")
            want(status == 206 and len(body) == 1, f"a thousand ranges: {status}, {len(body)} bytes")
            for text in (b"GET " + b"/x" * 100_000 + b" HTTP/1.1\r\nHost: a\r\n\r\n", b"GET / HTTP/1.1\r\n" + b"X: " + b"y" * 200_000 + b"\r\n\r\n",
                         b"GET / HTTP/1.1\r\n" + b"X: y\r\n" * 50_000 + b"\r\n", b"\0" * 100_000, b"GET\r\n\r\n", b"GET / HTTP/9.9\r\n\r\n",
                         f"GET {name} HTTP/1.1\r\nHost: a\r\nContent-Length: 99999999999\r\n\r\n".encode() + b"z" * 100_000,
                         f"GET {name} HTTP/1.1\r\nHost: a\r\nTransfer-Encoding: chunked\r\n\r\n".encode() + b"ffffffff\r\n" + b"z" * 100_000):
                with contextlib.suppress(ConnectionError):
                    got = raw(port, text, 2)
                    want(len(got) < 2000 and not got.startswith(b"HTTP/1.1 2"), f"{text[:40]}: {got[:80]}")
            for _ in range(40):                                # readers that read nothing, and requests that never end
                it = socket.create_connection(("127.0.0.1", port), LONGEST)
                it.sendall(f"GET {name} HTTP/1.1\r\nHost: a\r\n\r\n".encode() if len(held) % 2 else b"GET / HTTP/1.1\r\nX:")
                held.append(it)
            for start, end in drawn_ranges(random.Random(7), length, 50):
                want(ask(port, f"/{place.root}", f"bytes={start}-{end - 1}")[2] == place.blob[start:end], "others are held up")
            grown = memory_of(ran.pid) - before
            want(grown < 40 << 20, f"{grown} bytes more")
            for it in held:
                it.close()
            want(ask(port, name)[0] == 200, "it is gone")


def memory_of(pid):
    return int(re.search(r"VmRSS:\s+(\d+)", pathlib.Path(f"/proc/{pid}/status").read_text())[1]) * 1024


def readers_cost_no_fetch(tools, length=9_000_000):
    """A fetch ends in its time while clients hold as many connections as they get."""
    with tempfile.TemporaryDirectory() as folder:
        place = Place(folder, tools, length)
        try:
            urls = place.serve("bao@slow=3000000")
            with serving(place, "--serve-for", "0", "--", *urls) as (port, ran):
                held = []
                for _ in range(300):
                    with contextlib.suppress(OSError):
                        it = socket.create_connection(("127.0.0.1", port), 1)
                        it.sendall(f"GET /{place.root} HTTP/1.1\r\nHost: a\r\n".encode())
                        held.append(it)
                want(ran.wait(LONGEST) == 0 and place.out.read_bytes() == place.blob, f"status {ran.returncode}")
                for it in held:
                    it.close()
        finally:
            place.end()


def dripping_requests(tools, length=200_000):
    """A request whose header comes byte by byte is ended, also on a connection that had an answer, and whatever another client does meanwhile."""
    with tempfile.TemporaryDirectory() as folder:
        place = Place(folder, tools, length)
        make_seed(place)
        with serving(place) as (port, _):
            wait_for(port, place, lambda headers: True)
            held = [socket.create_connection(("127.0.0.1", port), LONGEST) for _ in range(20)]
            for at, it in enumerate(held):
                first = f"HEAD /{place.root} HTTP/1.1\r\nHost: a\r\n\r\n".encode()
                it.sendall(first * (at % 2) + b"GET / HTTP/1.1\r\nX: ")
            end = time.monotonic() + LONGEST
            while held and time.monotonic() < end:
                time.sleep(0.5)
                held = [it for it in held if goes_on(it)]
                want(ask(port, f"/{place.root}")[2] == place.blob, "another client isn't served")
            want(not held, f"{len(held)} requests go on")


def goes_on(it):
    """Whether a connection takes one more byte. It is closed if it doesn't."""
    it.setblocking(False)
    try:
        it.sendall(b"y")
        if it.recv(65536):
            return True
    except BlockingIOError:
        return True
    except OSError:
        pass
    it.close()
    return False


def limited(tools, length=2_000_000):
    """--serve-rate holds for all readers together."""
    with tempfile.TemporaryDirectory() as folder:
        place = Place(folder, tools, length)
        make_seed(place)
        with serving(place, "--serve-rate", "2M") as (port, _):
            wait_for(port, place, lambda headers: True)
            began = time.monotonic()
            with concurrent.futures.ThreadPoolExecutor(4) as pool:
                for status, _, body in pool.map(lambda _: ask(port, f"/{place.root}"), range(4)):
                    want((status, body) == (200, place.blob), "it isn't the blob")
            want(time.monotonic() - began > 3, "it isn't limited")


# --- Peers

@contextlib.contextmanager
def liar(place, mode):
    """A peer that says it has all, and is as the mode of mirrors.py for what it gives."""
    class Liar(mirrors.Mirror):
        def send_response(self, code, message=None):
            super().send_response(code, message)
            self.send_header("Berylwool-Has", "1 " + "f" * (len(place.blob) // GROUP // 4 + 1))
            self.send_header("Berylwool-Coming", "ffffffffffffffff " + " ".join(map(str, range(16))))

    them = mirrors.Mirrors(place.folder, [mode], Liar)
    try:
        yield f"http://127.0.0.1:{them.ports[0]}/blob.bao"
    finally:
        them.end()


def from_peers_alone(tools, length=9_000_000):
    """Two unfinished peers have it together. Who names them gets it from both, and from nobody else; who is named before it serves is asked later, as is who comes into an empty list."""
    with tempfile.TemporaryDirectory() as folder, tempfile.TemporaryDirectory() as other:
        place, second = Place(folder, tools, length), Place(other, tools, length)
        try:
            ports = free_ports(1)
            place.put("peers", b"# none yet\n")
            fetch = subprocess.Popen([*place.fetch, "--patience", str(LONGEST), "--peer", f"http://127.0.0.1:{ports[0]}", "--peers-file", place.folder / "peers", place.root,
                                      place.folder / "got"], stderr=subprocess.PIPE, text=True)
            late = subprocess.Popen([*place.fetch, "--patience", str(LONGEST), "--peers-file", place.folder / "peers", place.root, "-"], stdout=subprocess.PIPE, stderr=subprocess.DEVNULL)
            halves = place.serve("bao@some=1 bao@never"), second.serve("bao@some=5 bao@never")
            with serving(place, "--stall", "600", "-c", "1", "--", *halves[0]) as (one, _), serving(second, "--stall", "600", "-c", "1", "--serve", f"127.0.0.1:{ports[0]}", "--", *halves[1]):
                place.put("peers", f"http://127.0.0.1:{one}/\nhttp://127.0.0.1:{ports[0]}/{place.root}.bao\n".encode())
                want(late.communicate(timeout=LONGEST)[0] == place.blob and late.returncode == 0, f"status {late.returncode}, by the list alone")
                _, said = fetch.communicate(timeout=LONGEST)
                want(fetch.returncode == 0 and (place.folder / "got").read_bytes() == place.blob, f"status {fetch.returncode}: {said}")
        finally:
            place.end()
            second.end()


PORTS = itertools.count(20_000 + os.getpid() % 10_000)      # below those that the system gives, and each once


def free_ports(count):
    found = []
    while len(found) < count:
        with socket.socket() as it, contextlib.suppress(OSError):
            it.setsockopt(socket.SOL_SOCKET, socket.SO_REUSEADDR, 1)
            it.bind(("127.0.0.1", next(PORTS)))
            found.append(it.getsockname()[1])
    return found


def own_name(tools, length=3_000_000):
    """A program that is among its own peers is no hindrance, and an ordinary server may be a peer."""
    with tempfile.TemporaryDirectory() as folder:
        place = Place(folder, tools, length)
        try:
            url, port = place.serve("bao bao@flip"), free_ports(1)[0]
            ran = subprocess.run([*place.fetch, "--serve", str(port), "--origin-last", "600", "--peer", f"http://127.0.0.1:{port}", place.root, place.out, url[0]], capture_output=True, timeout=LONGEST)
            want(ran.returncode == 0 and place.out.read_bytes() == place.blob, f"status {ran.returncode}: {ran.stderr}")
            for words in (["--peer", url[0]], ["--peer", url[1], "--peer", url[0]]):
                ran = subprocess.run([*place.fetch, *words, place.root, "-"], capture_output=True, timeout=LONGEST)
                want(ran.returncode == 0 and ran.stdout == place.blob, f"{words}: status {ran.returncode}: {ran.stderr}")
        finally:
            place.end()


def origin_is_last(tools, length=9_000_000):
    """What a peer has isn't asked of an origin, and what it hasn't is."""
    with tempfile.TemporaryDirectory() as folder:
        place = Place(folder, tools, length)
        try:
            make_seed(place)
            with serving(place) as (port, _):
                wait_for(port, place, lambda headers: True)
                urls = place.serve("bao@late=0.5")         # what the peer has is known by then
                ran = subprocess.run([*place.fetch, "--origin-last", "600", "--peer", f"http://127.0.0.1:{port}", place.root, place.folder / "got", *urls], capture_output=True, timeout=LONGEST)
                want(ran.returncode == 0, f"status {ran.returncode}: {ran.stderr}")
                given = sum(end - start for it in place.requests(urls[0]) for start, end in it)
                want(given < 3_000_000, f"{given} bytes came from the origin")
        finally:
            place.end()


def lying_peers(tools, length=9_000_000):
    """Peers that lie about what they have, get and give cost no more than their time: the origin gives it."""
    for mode in ("noise", "flip", "e404", "e503", "never", "close", "stall", "shifted", "endless", "trunc", "nothttp", "headers", "busy=1"):
        with tempfile.TemporaryDirectory() as folder:
            place = Place(folder, tools, length)
            try:
                with liar(place, mode) as url:
                    for out in (place.out, "-"):
                        ran = subprocess.run([*place.fetch, "-v", "--origin-last", "0.5", "--peer", url, place.root, out, *place.serve("bao")], capture_output=True, timeout=LONGEST)
                        got = ran.stdout if out == "-" else place.out.read_bytes() if place.out.exists() else None
                        want(ran.returncode == 0 and got == place.blob, f"{mode}: status {ran.returncode}: {ran.stderr.decode()[-2000:]}")
            finally:
                place.end()


def hostile_maps(tools, length=3_000_000):
    """Maps and lists that no server writes."""
    dice = random.Random(3)
    odd = ["", " ", "0 ffff", "1", "1 ", "-1 ff", "4294967296 ff", "1 " + "f" * 60_000, "999999999 f", "1 zzzz", "x" * 5000, "1 " + "f" * 4096, "7 \xff\xff", "1 fffffffffffffffffffff g"]
    lists = ["", "a", "a b c", "ffffffffffffffff 0 18446744073709551615 -1 99999999999999999999999 x 1 1 1 1 1 1 1 1 1 1 1 1 1 1 1 1 1 1 1 1 1 1", "x" * 9000]

    class Odd(mirrors.Mirror):
        def send_response(self, code, message=None):
            super().send_response(code, message)
            for _ in range(dice.randrange(1, 3)):
                self.send_header("Berylwool-Has", dice.choice(odd))
            self.send_header("Berylwool-Coming", dice.choice(lists))

    with tempfile.TemporaryDirectory() as folder:
        place = Place(folder, tools, length)
        them = mirrors.Mirrors(place.folder, ["good", "flip"], Odd)
        try:
            for _ in range(8):
                place.out.unlink(missing_ok=True)
                peers = [word for port in them.ports for word in ("--peer", f"http://127.0.0.1:{port}/blob.bao")]
                ran = subprocess.run([*place.fetch, "--origin-last", "0.2", *peers, place.root, place.out, *place.serve("bao")], capture_output=True, timeout=LONGEST)
                want(ran.returncode == 0 and place.out.read_bytes() == place.blob, f"status {ran.returncode}: {ran.stderr}")
        finally:
            them.end()
            place.end()


def swarm(tools, draws=range(6)):
    """Drawn swarms of peers that lie, stop, end and come back. Each that stays ends with the blob."""
    for seed in draws:
        run_swarm(tools, seed)


def run_swarm(tools, seed):
    dice = random.Random(seed)
    length, count = dice.choice((100_000, 1_048_577, 5_000_000, 12_000_000)), dice.randrange(3, 7)
    with tempfile.TemporaryDirectory() as folder, contextlib.ExitStack() as stack:
        place = Place(folder, tools, length)
        stack.callback(place.end)
        modes = [dice.choice(("noise", "flip", "e503", "never", "stall", "trunc", f"to={length // 2}")) for _ in range(dice.randrange(3))]
        liars = [stack.enter_context(liar(place, mode)) for mode in modes]
        origin = place.serve("bao" + dice.choice(("", "@slow=4000000")))
        ports = free_ports(count)
        urls = [f"http://127.0.0.1:{port}" for port in ports] + liars
        place.put("peers", "".join(f"{it}\n" for it in urls).encode())

        def start(number, has_origin):
            words = ["--peers-file", place.folder / "peers"] if number % 2 else [word for at, it in enumerate(urls) if at != number for word in ("--peer", it)]
            return subprocess.Popen([*place.fetch, "-v", "--origin-last", "0.5", "--patience", str(LONGEST), "--serve", str(ports[number]), "--serve-for", "forever", *words, place.root,
                                     place.folder / f"got{number}", *origin * has_origin], stderr=open(place.folder / f"said{number}", "wb"), env={**os.environ, "BW_DELAYS": str(seed + 1)})

        with_origin = [number == 0 or dice.random() < 0.5 for number in range(count)]
        them = [start(number, with_origin[number]) for number in range(count)]
        for _ in range(dice.randrange(4)):                      # one ends at a drawn moment, and comes back: 0 is there all the time
            number = dice.randrange(1, count)
            time.sleep(dice.random() * 0.3)
            them[number].send_signal(dice.choice((signal.SIGTERM, signal.SIGKILL)))
            them[number].wait(LONGEST)
            them[number] = start(number, with_origin[number])
        end = time.monotonic() + LONGEST
        got = [place.folder / f"got{number}" for number in range(count)]
        said = [place.folder / f"said{number}" for number in range(count)]
        while not all("ok " in it.read_text() for it in said) and time.monotonic() < end and not any(it.poll() not in (None, 0) for it in them):
            time.sleep(0.05)
        for it in them:
            it.send_signal(signal.SIGTERM)
        ended = [it.wait(LONGEST) for it in them]
        for number in range(count):
            text = said[number].read_text()
            right = ended[number] == 0 and got[number].exists() and got[number].read_bytes() == place.blob and "Sanitizer" not in text and "runtime error" not in text
            want(right, f"draw {seed}, {length} bytes, {modes}: {number} of {count}: status {ended[number]}: {text[-2500:]}")


CASES = {it.__doc__.split(".")[0].split(",")[0].rstrip(): it for it in (serves_all, nothing_else, words_of_serve, serves_what_is_there, serves_to_the_end, hostile_requests,
                                                           readers_cost_no_fetch, dripping_requests, limited, from_peers_alone, own_name, origin_is_last, lying_peers, hostile_maps, swarm)}


def try_one(case, tools):
    """What is wrong with a case, or None."""
    try:
        return case(tools)
    except (hostile.Failure, OSError, subprocess.TimeoutExpired) as fault:
        return str(fault)


def main(fetch, mkbao, *words):
    hostile.isolate()
    tools = pathlib.Path(fetch).resolve(), pathlib.Path(mkbao).resolve()
    if "without libmicrohttpd" in subprocess.run([tools[0], "--serve", "0", "0" * 64, tools[0].parent / "none"], capture_output=True, text=True).stderr:
        print("peers.py: not run, since this build has no --serve")
        return 0
    cases = {name: case for name, case in CASES.items() if hostile.is_wanted(name, words)}
    with concurrent.futures.ThreadPoolExecutor(hostile.SIDE_BY_SIDE) as pool:
        found = dict(zip(cases, pool.map(lambda case: try_one(case, tools), cases.values())))
    wrong = {name: fault for name, fault in found.items() if fault}
    for name, fault in wrong.items():
        print(f"peers.py: {name}: {fault}")
    print(f"{len(cases)} cases passed" if not wrong else f"{len(wrong)} of {len(cases)} cases failed")
    return 1 if wrong else 0


if __name__ == "__main__":
    sys.exit(main(*sys.argv[1:]) if len(sys.argv) > 2 else __doc__)
