#!/usr/bin/env python3
"""Measures how many machines get one blob from each other and from one origin.

    swarm.py BW_FETCH MKBAO [MIB [COUNT ..]]

The origin sends 10 MB/s at most, and each of COUNT machines (1, 4 and 16) 50 MB/s each way. Each machine is a network namespace with a link to one switch, and tc
holds up what goes over it; without leave for that all run on loopback, held up by their own --limit-rate and --serve-rate, and a line says so. Of MIB MiB, 256 if
left out, each row has the seconds until the last machine has the blob, and how many times the blob's bytes left the origin. In the rows of `liars` a third as many
more peers lie: of these half give false bytes, half stop in each answer; in those of `ends` a third of the machines is killed after 5 seconds and begins anew.
Beside it, if aria2c is there, BitTorrent with a tracker of this program.
"""
import contextlib
import hashlib
import http.server
import os
import pathlib
import random
import re
import shutil
import socketserver
import subprocess
import sys
import tempfile
import threading
import time

sys.dont_write_bytecode = True
import mirrors

MIB = 1 << 20
ORIGIN, PEER = 10_000_000, 50_000_000      # bytes a second
LONGEST = 600
GROUP = 65_536


def isolate():
    """Begins anew in a network of its own. Whether tc may hold up links there."""
    if not os.environ.get("BW_SWARM"):
        words = ["unshare", "-n", "sh", "-c", "ip link add br0 type bridge && tc qdisc add dev lo root tbf rate 1mbit burst 32kb latency 50ms"]
        allowed = all(map(shutil.which, ("unshare", "nsenter", "ip", "tc"))) and subprocess.run(words, capture_output=True).returncode == 0
        os.environ["BW_SWARM"] = "1" if allowed else "0"
        if allowed:
            os.execvp("unshare", ["unshare", "-n", sys.executable, *sys.argv])
    return os.environ["BW_SWARM"] == "1"


def run(*words):
    subprocess.run([str(it) for it in words], check=True)


class Network:
    """Machines 0 (the origin) to `count`, each with an address and a way to run words there. Machine `count` + 1 is this program."""

    def __init__(self, count, is_linked):
        self.is_linked, self.holders = is_linked, []
        if not is_linked:
            return
        run("ip", "link", "set", "lo", "up")
        run("ip", "link", "add", "br0", "type", "bridge")
        run("ip", "address", "add", f"10.78.0.{count + 2}/16", "dev", "br0")
        run("ip", "link", "set", "br0", "up")
        own = os.readlink("/proc/self/ns/net")
        for number in range(count + 1):
            holder = subprocess.Popen(["unshare", "-n", "sleep", "7200"])
            while os.readlink(f"/proc/{holder.pid}/ns/net") == own:
                time.sleep(0.001)
            self.holders.append(holder)
            run("ip", "link", "add", f"v{number}", "type", "veth", "peer", "name", "there", "netns", holder.pid)
            run("ip", "link", "set", f"v{number}", "master", "br0", "up")
            enter = self.enter(number)
            run(*enter, "ip", "address", "add", f"{self.address(number)}/16", "dev", "there")
            run(*enter, "ip", "link", "set", "there", "up")
            run(*enter, "ip", "link", "set", "lo", "up")
            limit = ["root", "tbf", "burst", "256kb", "latency", "100ms", "rate"]
            run(*enter, "tc", "qdisc", "add", "dev", "there", *limit, f"{(PEER if number else ORIGIN) * 8}bit")
            run("tc", "qdisc", "add", "dev", f"v{number}", *limit, f"{PEER * 8}bit")

    def enter(self, number):
        return ["nsenter", "-t", str(self.holders[number].pid), "-n"] if self.is_linked else []

    def address(self, number):
        return f"10.78.0.{number + 1}" if self.is_linked else "127.0.0.1"

    def listens(self, number):
        return f"{self.address(number)}:{7000 + number}"

    def own(self, count):
        return f"10.78.0.{count + 2}" if self.is_linked else "127.0.0.1"

    def end(self):
        for it in self.holders:
            it.kill()
            it.wait()
        if self.is_linked:
            for number in range(len(self.holders)):
                subprocess.run(["ip", "link", "del", f"v{number}"], capture_output=True)
            run("ip", "link", "del", "br0")


def sent_of(number, net):
    """By the namespace's own counters, which are read over netlink."""
    text = subprocess.run([*net.enter(number), "ip", "-s", "link", "show", "there"], capture_output=True, text=True, check=True).stdout
    return int(text.split("TX:")[1].split("\n")[1].split()[0])


@contextlib.contextmanager
def liars(folder, count, address, length):
    class Liar(mirrors.Mirror):
        def send_response(self, code, message=None):
            super().send_response(code, message)
            self.send_header("Berylwool-Has", "1 " + "f" * (length // GROUP // 4 + 1))
            self.send_header("Berylwool-Coming", "ffffffffffffffff " + " ".join(map(str, range(16))))

    os.environ["BW_FETCH_ALONE"] = "1"
    them = mirrors.Mirrors(folder, ["noise" if it % 2 else "stall" for it in range(count)], Liar)
    try:
        yield [f"http://{address}:{port}/X.bao" for port in them.ports]
    finally:
        them.end()


def has_ended(said):
    return said.exists() and re.search(r"(?m)^ok \d+$", said.read_text()) is not None


def wait_all(paths, is_done):
    began, end = time.monotonic(), time.monotonic() + LONGEST
    while not all(map(is_done, paths)):
        if time.monotonic() > end:
            sys.exit("swarm.py: it doesn't end")
        time.sleep(0.02)
    return time.monotonic() - began


def one_row(tools, folder, root, length, count, is_linked, kind):
    """Seconds, and how many times the blob left the origin."""
    fetch = tools[0]
    net, running = Network(count, is_linked), []
    limits = lambda rate: [] if is_linked else ["--limit-rate", str(PEER), "--serve-rate", str(rate)]
    said = [folder / f"said{number}" for number in range(count + 1)]
    try:
        with contextlib.ExitStack() as stack:
            more = stack.enter_context(liars(folder, count // 3 + 1, net.own(count), length)) if kind == "liars" else []
            words = [*net.enter(0), fetch, "--serve", net.listens(0), *limits(ORIGIN), root, folder / "X"]
            running.append(subprocess.Popen(list(map(str, words)), stderr=open(said[0], "wb")))
            wait_all(said[:1], has_ended)
            before = sent_of(0, net) if is_linked else 0

            def start(number):
                peers = [f"http://{net.listens(it)}" for it in range(1, count + 1) if it != number] + more
                words = [*net.enter(number), fetch, "-v", "--serve", net.listens(number), "--serve-for", "forever", *limits(PEER), *(word for it in peers for word in ("--peer", it)), root,
                         folder / f"got{number}", f"http://{net.listens(0)}/{root}.bao"]
                return subprocess.Popen(list(map(str, words)), stderr=open(said[number], "wb"))

            running += [start(number) for number in range(1, count + 1)]
            began = time.monotonic()
            if kind == "ends":
                time.sleep(5)
                for number in range(1, count // 3 + 1):
                    running[number].kill()
                    running[number].wait()
                    running[number] = start(number)
            wait_all(said[1:], has_ended)
            seconds = time.monotonic() - began
            left = sent_of(0, net) - before if is_linked else None
            for it in running:
                it.terminate()
                it.wait()
            if not is_linked:
                left = sum(int(re.search(rf":7000/{root}\.bao: (\d+) bytes", it.read_text())[1]) for it in said[1:])
            for number in range(1, count + 1):
                run("cmp", folder / f"got{number}", folder / "X")
            return seconds, left / length
    finally:
        for it in running:
            if it.poll() is None:
                it.kill()
                it.wait()
        net.end()
        for it in folder.glob("got*"):
            it.unlink()
        for it in said:
            it.unlink(missing_ok=True)


# --- BitTorrent

def bencode(it):
    if isinstance(it, int):
        return b"i%de" % it
    if isinstance(it, (bytes, str)):
        it = it.encode() if isinstance(it, str) else it
        return b"%d:%s" % (len(it), it)
    if isinstance(it, list):
        return b"l" + b"".join(map(bencode, it)) + b"e"
    return b"d" + b"".join(bencode(key) + bencode(it[key]) for key in sorted(it)) + b"e"


class Tracker(http.server.BaseHTTPRequestHandler):
    def log_message(self, *words):
        pass

    def do_GET(self):
        port = int(re.search(r"[?&]port=(\d+)", self.path)[1])
        with self.server.lock:
            self.server.known.add((self.client_address[0], port))
            them = b"".join(bytes(map(int, host.split("."))) + at.to_bytes(2, "big") for host, at in self.server.known if (host, at) != (self.client_address[0], port))
        body = bencode({"interval": 2, "min interval": 1, "peers": them})
        self.send_response(200)
        self.send_header("Content-Length", str(len(body)))
        self.end_headers()
        self.wfile.write(body)


class TrackerServer(socketserver.ThreadingMixIn, http.server.HTTPServer):
    daemon_threads = True


def torrent_row(folder, length, count, is_linked):
    net, running = Network(count, is_linked), []
    server = TrackerServer((net.own(count), 0), Tracker)
    server.known, server.lock = set(), threading.Lock()
    threading.Thread(target=server.serve_forever, args=(0.05,), daemon=True).start()
    try:
        with open(folder / "X", "rb") as file:
            sums = b"".join(hashlib.sha1(piece).digest() for piece in iter(lambda: file.read(MIB), b""))
        info = {"name": "X", "length": length, "piece length": MIB, "pieces": sums}
        (folder / "X.torrent").write_bytes(bencode({"announce": f"http://{net.own(count)}:{server.server_port}/announce", "info": info}))

        def start(number):
            at = folder / f"torrent{number}"
            at.mkdir()
            if not number:
                (at / "X").symlink_to(folder / "X")
            limits = [] if is_linked else [f"--max-overall-upload-limit={PEER if number else ORIGIN}", f"--max-overall-download-limit={PEER}"]
            words = [*net.enter(number), "aria2c", "--no-conf", "-q", "--enable-dht=false", "--bt-enable-lpd=false", "--seed-ratio=0", "--file-allocation=none", f"--listen-port={7000 + number}",
                     "--bt-tracker-interval=1", "--on-bt-download-complete=" + str(done), *limits, "--check-integrity=true", "-d", at, folder / "X.torrent"]
            return subprocess.Popen(list(map(str, words)), stdout=subprocess.DEVNULL, env={**os.environ, "DONE": str(at / "done")})

        done = folder / "done.sh"
        done.write_text("#!/bin/sh\n: > \"$DONE\"\n")
        done.chmod(0o700)
        running.append(start(0))
        time.sleep(3 + length / (500 * MIB))
        before = sent_of(0, net) if is_linked else 0
        began = time.monotonic()
        running += [start(number) for number in range(1, count + 1)]
        wait_all([folder / f"torrent{number}" / "done" for number in range(1, count + 1)], pathlib.Path.exists)
        return time.monotonic() - began, (sent_of(0, net) - before) / length if is_linked else None
    finally:
        server.shutdown()
        server.server_close()
        for it in running:
            it.kill()
            it.wait()
        net.end()
        for it in folder.glob("torrent*"):
            shutil.rmtree(it)


def main(fetch, mkbao, mib="256", *counts):
    is_linked, counts = isolate(), [int(it) for it in counts] or [1, 4, 16]
    if not is_linked:
        print("all on loopback, held up by the programs' own limits, since network namespaces or tc aren't to be had here")
    os.environ["no_proxy"] = "*"
    length = int(mib) * MIB
    at = "/dev/shm" if os.access("/dev/shm", os.W_OK) else None
    with tempfile.TemporaryDirectory(dir=at) as folder:
        folder = pathlib.Path(folder)
        block = random.Random(1).randbytes(MIB - 8)
        with open(folder / "X", "wb") as file:
            for number in range(int(mib)):
                file.write(number.to_bytes(8, "little") + block)
        root = subprocess.run([mkbao, folder / "X"], check=True, capture_output=True, text=True).stdout.strip()
        tools = pathlib.Path(fetch).resolve(), pathlib.Path(mkbao).resolve()
        first = None
        rows = [(count, "") for count in counts] + [(counts[-1], kind) for kind in ("liars", "ends")]
        for count, kind in rows:
            seconds, left = one_row(tools, folder, root, length, count, is_linked, kind)
            first = first or seconds
            print(f"bw-fetch, {count} machines{', ' * bool(kind)}{kind}: {seconds:.1f} s, {seconds / first:.2f} times one; {left:.2f} times the blob left the origin", flush=True)
        for count in counts if shutil.which("aria2c") else []:
            seconds, left = torrent_row(folder, length, count, is_linked)
            print(f"aria2c, {count} machines: {seconds:.1f} s; {'' if left is None else f'{left:.2f} times the blob left the origin'}", flush=True)


if __name__ == "__main__":
    main(*sys.argv[1:])
