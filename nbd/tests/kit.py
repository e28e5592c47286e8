"""What the tests of the plugin share: blobs with their encodings, servers, nbdkit with the plugin, and a client of its own.

The environment names the plugin: NBDKIT_BERYLWOOL, which is out/nbdkit-berylwool-plugin.so if left out.
"""
import os
import pathlib
import random
import signal
import socket
import struct
import subprocess
import sys
import time

sys.dont_write_bytecode = True
HERE = pathlib.Path(__file__).resolve().parent
ROOT = HERE.parents[1]
sys.path += [str(ROOT / "scripts" / "tests"), str(ROOT / "scripts"), str(ROOT / "fetch" / "tests")]
import cases
import definitions as by
import mirrors

PLUGIN = os.path.abspath(os.environ.get("NBDKIT_BERYLWOOL", ROOT / "out" / "nbdkit-berylwool-plugin.so"))
ARCHIVE = os.environ.get("BERYLWOOL_ARCHIVE", ROOT / "out" / "libberylwool.a")
HELD = 120                              # seconds after which a run counts as hung
LONG = 9_000_001                        # bytes: nine windows, and a chunk of one byte
EIO = 5


def build_mkbao(folder):
    subprocess.run(["cc", "-O2", f"-I{ROOT}/c", ROOT / "fetch/tests/mkbao.c", ARCHIVE, "-o", f"{folder}/mkbao"], check=True)


def bytes_of(length):
    return random.Random(length).randbytes(length)


def make_blob(folder, length, key=""):
    """A blob with its encodings and its root: by the definitions where it is short, else by the encoder of the C library."""
    file, blob = pathlib.Path(folder, "blob"), bytes_of(int(length))
    file.write_bytes(blob)
    if len(blob) > 70_000:
        root = subprocess.run([f"{cases.once(build_mkbao)}/mkbao", file, *([key] if key else [])], check=True, capture_output=True, text=True).stdout.strip()
    else:
        mode = by.Mode() if not key else by.Mode.keyed(bytes.fromhex(key)) if len(key) == 64 else by.Mode.derived(key.encode())
        pathlib.Path(folder, "blob.bao").write_bytes(by.combined(mode, blob))
        pathlib.Path(folder, "blob.obao").write_bytes(by.outboard(mode, blob))
        root = mode.hash(blob).hex()
    pathlib.Path(folder, "root").write_text(root)


class Blob:
    """A blob and the folder that a server has of it."""

    def __init__(self, length, key=""):
        self.folder = cases.once(make_blob, str(length), *([key] if key else []))
        self.bytes, self.root = bytes_of(length), pathlib.Path(self.folder, "root").read_text()


class Served:
    """Servers of a blob in threads of this process, one for each mode of fetch/tests/mirrors.py; and the words for the plugin that name them."""

    def __init__(self, case, blob, *modes, form="bao", handler=mirrors.Mirror):
        self.servers = mirrors.Mirrors(blob.folder, modes, handler, f"{case.folder()}/requests")
        case.addCleanup(self.servers.end)
        self.ports = self.servers.ports
        self.words = words_of(self.ports, form)

    def requests(self, number):
        """How many requests a server had."""
        port = str(self.ports[number])
        return sum(line.startswith(f"{port} ") for line in open(self.servers.servers[number].log))


def words_of(ports, form):
    """A plain file has its server's outboard encoding beside it."""
    at = [f"http://127.0.0.1:{it}/blob" for it in ports]
    return [f"url={it}.bao" for it in at] if form == "bao" else [f"{key}={it}{tail}" for it in at for key, tail in (("url", ""), ("outboard", ".obao"))]


class Lone:
    """A true server in a process of its own, which can be killed, and begin again at the same port."""

    def __init__(self, case, blob):
        with socket.socket() as any_port:
            any_port.bind(("127.0.0.1", 0))
            self.port = any_port.getsockname()[1]
        self.folder, self.process = blob.folder, None
        self.begin()
        case.addCleanup(self.kill)

    def begin(self):
        code = "import sys, threading; sys.path.append(sys.argv[1]); import mirrors; s = mirrors.Server(('127.0.0.1', int(sys.argv[2])), mirrors.Mirror); " \
               "s.folder, s.mode, s.value, s.log, s.lock, s.ended = sys.argv[3], 'good', '', None, threading.Lock(), threading.Event(); print(flush=True); s.serve_forever()"
        self.process = subprocess.Popen([sys.executable, "-B", "-c", code, ROOT / "fetch/tests", str(self.port), self.folder], stdout=subprocess.PIPE)
        self.process.stdout.readline()

    def kill(self):
        self.process.kill()
        self.process.wait()
        self.process.stdout.close()


class Refused(Exception):
    """The server's error, by the number of the protocol."""


class Client:
    """One connection, in the fixed newstyle of the NBD protocol, that asks for one range after another."""

    def __init__(self, path):
        self.socket = socket.socket(socket.AF_UNIX)
        self.socket.settimeout(HELD)
        self.socket.connect(path)
        self.take(18)
        self.socket.sendall(struct.pack(">I", 3) + struct.pack(">8sIIIH", b"IHAVEOPT", 7, 6, 0, 0))
        self.size = None
        while True:
            _, _, kind, length = struct.unpack(">QIII", self.take(20))
            told = self.take(length)
            if kind == 3 and told[:2] == b"\0\0":
                self.size = struct.unpack(">Q", told[2:10])[0]
            elif kind == 1:
                return
            elif kind >> 31:
                self.close()
                raise Refused(kind, told.decode(errors="replace"))

    def take(self, length):
        parts = []
        while length:
            parts.append(self.socket.recv(min(length, 1 << 20)))
            if not parts[-1]:
                raise EOFError
            length -= len(parts[-1])
        return b"".join(parts)

    def ask(self, kind, at, length):
        self.socket.sendall(struct.pack(">IHHQQI", 0x25609513, 0, kind, 0, at, length))
        _, error, _ = struct.unpack(">IIQ", self.take(16))
        if error:
            raise Refused(error)

    def read(self, at, length):
        self.ask(0, at, length)
        return self.take(length)

    def cache(self, at, length):
        self.ask(5, at, length)

    def error_of(self, at, length):
        """The number of a read's error, or 0."""
        try:
            self.read(at, length)
        except Refused as refused:
            return refused.args[0]
        return 0

    def close(self):
        self.socket.close()


class Kit:
    """nbdkit with the plugin, at a socket of its own."""

    def __init__(self, case, *words, root=None, env=()):
        folder = case.folder()
        self.path, self.log = f"{folder}/socket", open(f"{folder}/log", "w+")
        words = [f"root={root}"] * bool(root) + list(words)
        self.process = subprocess.Popen(["nbdkit", "-f", "-v", "-U", self.path, "-P", f"{folder}/ready", PLUGIN, *words], stderr=self.log, stdin=subprocess.DEVNULL,
                                        env={**os.environ, **dict(env)})
        case.addCleanup(self.end)
        self.uri = f"nbd+unix:///?socket={self.path}"
        until = time.monotonic() + HELD
        while not os.path.exists(f"{folder}/ready") and self.process.poll() is None and time.monotonic() < until:
            time.sleep(0.01)

    def client(self):
        return Client(self.path)

    def peak(self):
        """The bytes of memory that it had at most."""
        with open(f"/proc/{self.process.pid}/status") as told:
            return next(int(it.split()[1]) << 10 for it in told if it.startswith("VmHWM"))

    def said(self):
        self.log.flush()
        return pathlib.Path(self.log.name).read_text(errors="replace")

    def stop(self, number=signal.SIGTERM):
        """Ends it, and answers its status."""
        self.process.send_signal(number)
        return self.process.wait(HELD)

    def end(self):
        if self.process.poll() is None:
            self.process.kill()
            self.process.wait()
        self.log.close()


def run(*words, **more):
    return subprocess.run([str(it) for it in words], **{"capture_output": True, "text": True, "timeout": HELD, **more})


def parts_of(length, most, seed):
    """Ranges in an order that is drawn, of which each byte is in one."""
    cuts = sorted({0, length, *(random.Random(seed).randrange(length + 1) for _ in range(2 * length // most))})
    ranges = [(a, b - a) for a, b in zip(cuts, cuts[1:])]
    random.Random(seed + 1).shuffle(ranges)
    return ranges
