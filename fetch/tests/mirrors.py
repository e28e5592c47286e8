"""Mirrors on loopback for the tests of bw-fetch, most of them hostile.

    mirrors.py FOLDER [tls:|mutual:|six:]MODE[=VALUE] ..

prints a port for each mode, then a line 'blocked' each time that a mirror of mode `half` begins to say nothing more. FOLDER/requests gets a line for each
request: port, range, path. With tls: it is https, by FOLDER/key.pem and FOLDER/cert.pem; with mutual: also for a client with FOLDER/client.pem alone; with six: it listens on ::1. It ends with its standard input, or after SECONDS.
`Mirrors` is the same for a test that is written in Python. A mode with `whole` before it knows no ranges, as `norange`.
"""
import base64
import email.utils
import http.server
import os
import random
import re
import socket
import socketserver
import ssl
import sys
import threading
import time

SECONDS = 3600
FOREVER = 3600
FLIPPED = bytes(it ^ 1 for it in range(256))


def ranges_of(header, size):
    """The ranges asked for, as (start, end) without the end; None where there are none, and [] where none is there."""
    asked = re.match(r"bytes=([\d,\s-]+)$", header or "")
    if not asked:
        return None
    found = []
    for it in asked[1].split(","):
        first, last = it.strip().split("-")
        start, end = int(first), min(size, int(last or size) + 1)
        if start < end:
            found.append((start, end))
    return found


class Mirror(http.server.BaseHTTPRequestHandler):
    protocol_version = "HTTP/1.1"
    disable_nagle_algorithm = True

    def log_message(self, *words):
        pass

    def setup(self):
        super().setup()
        self.mode, self.value = self.server.mode, self.server.value
        self.is_whole = self.mode == "norange" or self.mode.startswith("whole")
        self.mode = self.mode.removeprefix("whole")

    def do_GET(self):
        self.has_turn = False
        try:
            self.note()
            self.answer()
        except OSError:
            self.close_connection = True
        finally:
            if self.has_turn:
                self.server.busy = False

    def note(self):
        if self.server.log:
            with open(self.server.log, "ab", buffering=0) as file:
                file.write(f"{self.server.server_port} {self.headers.get('Range', '-')} {self.path} {self.headers.get('X-Token', '-')}\n".encode())

    def asked_for(self):
        """How many bytes."""
        return sum(end - start for start, end in ranges_of(self.headers.get("Range"), 1 << 62) or [])

    # --- Answers that need no file

    def redirect(self, to):
        self.send_response(302)
        self.send_header("Location", to)
        self.send_header("Content-Length", "0")
        self.end_headers()

    def say_nothing(self):
        self.server.ended.wait(FOREVER)
        self.close_connection = True

    def endless_headers(self):
        self.wfile.write(b"HTTP/1.1 206 Partial Content\r\n")
        while not self.server.ended.is_set():
            self.wfile.write(b"X-Filler: " + b"x" * 900 + b"\r\n")

    def dripping_headers(self):
        self.wfile.write(b"HTTP/1.1 206 Partial Content\r\n")
        while not self.server.ended.wait(0.05):
            self.wfile.write(b"X: x\r\n")

    def endless_redirect(self, to):
        self.send_response(302)
        self.send_header("Location", to)
        self.send_header("Transfer-Encoding", "chunked")
        self.end_headers()
        while not self.server.ended.is_set():
            self.wfile.write(b"10000\r\n" + bytes(65536) + b"\r\n")

    def is_out(self):
        """Closes each connection for some seconds, from the first request for data on."""
        server, now = self.server, time.monotonic()
        with server.lock:
            if server.until is None and self.asked_for() > 20_000:
                server.until = now + float(self.value)
            out = server.until is not None and now < server.until
        self.close_connection |= out
        return out

    def lacks_password(self):
        lacks = self.headers.get("Authorization") != f"Basic {base64.b64encode(self.value.encode()).decode()}"
        if lacks:
            self.send_error(401)
        return lacks

    def fails_each(self, number):
        with self.server.lock:
            self.server.asked += 1
            fails = self.server.asked % number == 0
        if fails:
            self.send_error(500)
        return fails

    def waits_for_others(self):
        """The first two requests are answered once each mirror of this mode has got as many."""
        with self.server.lock:
            self.server.asked += 1
            waits = self.server.asked <= 2
        if waits:
            self.server.together.wait(FOREVER)

    def is_refused(self):
        """Whether another connection has an answer under way: then this one gets 503."""
        with self.server.lock:
            busy = self.server.busy
            self.server.busy = True
        self.has_turn = not busy
        if busy:
            self.send_error(503)
        return busy

    def ask_to_wait(self, code, when):
        self.send_response(code)
        self.send_header("Retry-After", when)
        self.send_header("Content-Length", "0")
        self.end_headers()

    def later(self):
        """Asks the first request to wait for some seconds, in the mode's way; who doesn't is never answered. Whether the answer was given."""
        server, how, seconds = self.server, self.mode, int(self.value)
        if how == "laterdata" and self.asked_for() < 20_000:
            return False
        date = int(time.time()) + seconds
        clock, until = (time.time(), date) if how == "laterdate" else (time.monotonic(), time.monotonic() + seconds)
        with server.lock:
            is_first = server.until is None
            if is_first:
                server.until = until
            server.impatient |= not is_first and clock < server.until
        if is_first:
            self.ask_to_wait(429 if how == "laterdate" else 503, email.utils.formatdate(date, usegmt=True) if how == "laterdate" else str(seconds))
        elif server.impatient:
            self.send_error(404)
        return is_first or server.impatient

    def answered(self):
        """Whether the mode's answer is one without a file; it was given then."""
        mode = self.mode
        if mode == "never":
            self.say_nothing()
        elif mode in ("e403", "e404", "e500", "e503"):
            self.send_error(int(mode[1:]))
        elif mode == "redirect":
            self.redirect(f"http://127.0.0.1:{self.value}{self.path}")
        elif mode == "upgrade":
            self.redirect(f"https://127.0.0.1:{self.value}{self.path}")
        elif mode == "loop":
            self.redirect(self.path)
        elif mode == "tofile":
            self.redirect(f"file://{self.server.folder}/{os.path.basename(self.path)}")
        elif mode == "headers":
            self.endless_headers()
        elif mode == "dripheaders":
            self.dripping_headers()
        elif mode == "nothttp":
            self.wfile.write(random.Random(1).randbytes(4000))
            self.close_connection = True
        elif mode == "close":
            self.close_connection = True
        elif mode == "busy":
            self.ask_to_wait(503, self.value)
        elif mode == "busylate":
            time.sleep(0.6)
            self.ask_to_wait(503, self.value)
        elif mode == "longheader":
            self.wfile.write(b"HTTP/1.1 206 Partial Content\r\nX-Filler: " + b"x" * 150_000 + b"\r\n\r\n")
            self.close_connection = True
        elif mode == "endlessredirect":
            self.endless_redirect(f"http://127.0.0.1:{self.value}{self.path}")
        elif mode == "password":
            return self.lacks_password()
        elif mode == "outage":
            return self.is_out()
        elif mode == "eighth":
            return self.fails_each(8)
        elif mode == "thirdobao":
            return self.path.endswith(".obao") and self.fails_each(3)
        elif mode == "oneconnection":
            return self.is_refused()
        elif mode == "together":
            return self.waits_for_others()
        elif mode == "after" and self.asked_for() > 20_000:
            return not self.server.given[self.value].wait(FOREVER)
        elif mode in ("later", "laterdata", "laterdate"):
            return self.later()
        else:
            return False
        return True

    # --- The file's bytes

    def changed(self, body, start, size, path):
        """The bytes from `start` on, as the mode has them."""
        mode, value = self.mode, self.value
        dice = random.Random(f"{self.path}{start}{value}")
        if mode == "noise":
            return bytearray(dice.randbytes(len(body)))
        if mode == "zeros":
            return bytearray(len(body))
        if mode == "flip":                                      # a byte of each group
            for at in range(0, len(body), 65536):
                body[min(len(body) - 1, at + dice.randrange(65536))] ^= 1 + dice.randrange(255)
        if mode == "some":                                      # a byte of each mebibyte of the file, at its own place for each mirror
            for at in range(int(value) * 100_003 % (1 << 20), size, 1 << 20):
                if start <= at < start + len(body):
                    body[at - start] ^= 255
        if mode == "at":                                        # one byte of the file
            if start <= int(value) < start + len(body):
                body[int(value) - start] ^= 1
        if mode == "claim" or mode in ("longer", "huge") and not path.endswith(value or "-"):
            claim = (int(value) if mode == "claim" else (size << 20) + 77 if mode == "longer" else (1 << 64) - 1).to_bytes(8, "little")
            for at in range(start, min(8, start + len(body))):
                body[at - start] = claim[at]
        if mode == "to":                                        # true up to here
            first = max(start, int(value)) - start
            body[first:] = body[first:].translate(FLIPPED)
        if mode == "from":                                      # true from here on, and in the topmost parents
            first, last = max(start, 8 + 64 * 40) - start, max(start, int(value)) - start
            body[first:last] = body[first:last].translate(FLIPPED)
        return body

    def multipart(self, parts, size):
        """A body of several parts, as the mode has them."""
        if self.mode == "reversed":
            parts = parts[::-1]
        if self.mode == "coalesced":
            parts = [(parts[0][0], self.bytes_of(parts[0][0], parts[-1][0] + len(parts[-1][1])))]
        out = b"\r\n"
        for start, body in parts:
            end = start + len(body) + (4096 if self.mode == "badparts" else -1)
            out += b"--THIS\r\nContent-Type: application/octet-stream\r\nContent-Range: bytes %d-%d/%d\r\n\r\n" % (start, end, size) + bytes(body) + b"\r\n"
        return out + b"--THIS--\r\n"

    def bytes_of(self, start, end):
        with open(self.file, "rb") as file:
            file.seek(start)
            return self.changed(bytearray(file.read(end - start)), start, os.path.getsize(self.file), self.file)

    def answer(self):
        if self.answered():
            return
        self.file = os.path.join(self.server.folder, os.path.basename(self.path.partition("?")[0]))
        try:
            size = os.path.getsize(self.file)
        except OSError:
            return self.send_error(404)
        asked = None if self.is_whole else ranges_of(self.headers.get("Range"), size)
        if asked is not None and len(asked) > 1 and self.mode == "severalwhole":
            asked = None
        if asked == [] or (asked and len(asked) > 1 and self.mode.startswith("several4") or asked and len(asked) > 1 and self.mode == "several500"):
            return self.send_error(int(self.mode[7:]) if asked else 416)
        if asked and self.mode == "onerange":
            asked = asked[:1]
        if self.mode == "half" and asked and asked[-1][1] > size // 2 and sum(end - start for start, end in asked) > 20_000:
            print("blocked", flush=True)
            return self.say_nothing()
        parts = [(start, self.bytes_of(start, end)) for start, end in asked or [(0, size)]]
        if len(parts) > 1:
            self.send_body(206, "multipart/byteranges; boundary=THIS", None, self.multipart(parts, size))
        else:
            start, body = parts[0]
            shift = 4096 if self.mode == "shifted" else 0
            self.send_body(206 if asked else 200, "application/octet-stream", f"bytes {start + shift}-{start + len(body) - 1 + shift}/{size}" if asked else None, body)

    def send_body(self, code, kind, place, body):
        mode = self.mode
        self.send_response(code)
        self.send_header("Content-Type", kind)
        if place and mode != "unplaced":
            self.send_header("Content-Range", place)
        if mode == "gzip":
            self.send_header("Content-Encoding", "gzip")
        if mode == "endless":
            self.send_header("Connection", "close")
        else:
            self.send_header("Content-Length", str(len(body)))
        self.end_headers()
        if mode == "endless":
            self.wfile.write(body)
            while not self.server.ended.is_set():
                self.wfile.write(bytes(65536))
        elif mode == "trunc":
            self.wfile.write(body[:len(body) * 6 // 10])
            self.close_connection = True
        elif mode == "begins" or mode == "stall" and len(body) > 20_000:
            self.wfile.write(body[:100 if mode == "begins" else len(body) // 3])
            self.wfile.flush()
            self.say_nothing()
        elif mode == "drip":
            for at in range(len(body)):
                self.wfile.write(body[at:at + 1])
                if self.server.ended.wait(0.05):
                    return
        elif mode in ("slow", "slowdata", "oneconnection"):
            step, first = int(self.value) // 20, 20_000 if mode == "slowdata" else 0
            self.wfile.write(body[:first])
            for at in range(first, len(body), step):
                self.wfile.write(body[at:at + step])
                if self.server.ended.wait(0.05):
                    return
        else:
            if mode == "late":
                time.sleep(float(self.value))
            try:
                self.wfile.write(body)
            finally:
                if len(body) > 20_000:
                    self.server.given[str(self.server.server_port)].set()


class Server(socketserver.ThreadingMixIn, http.server.HTTPServer):
    daemon_threads = True
    request_queue_size = 128

    def handle_error(self, request, address):
        pass


class Server6(Server):
    address_family = socket.AF_INET6


class Mirrors:
    """The servers, one for each mode, in threads of this process."""

    def __init__(self, folder, modes, handler=Mirror, log=None):
        self.servers, self.ports, given = [], [], {}
        together = threading.Barrier(max(1, modes.count("together")))
        for word in modes:
            way, _, rest = word.partition(":") if word.startswith(("tls:", "mutual:", "six:")) else ("", "", word)
            mode, _, value = rest.partition("=")
            server = Server6(("::1", 0), handler) if way == "six" else Server(("0.0.0.0" if os.environ.get("BW_FETCH_ALONE") else "127.0.0.1", 0), handler)
            if way in ("tls", "mutual"):
                context = ssl.SSLContext(ssl.PROTOCOL_TLS_SERVER)
                context.load_cert_chain(f"{folder}/cert.pem", f"{folder}/key.pem")
                if way == "mutual":
                    context.load_verify_locations(f"{folder}/client.pem")
                    context.verify_mode = ssl.CERT_REQUIRED
                server.socket = context.wrap_socket(server.socket, server_side=True, do_handshake_on_connect=False)
            server.log, server.lock, server.until, server.impatient = log, threading.Lock(), None, False
            server.asked, server.busy, server.together, server.given = 0, False, together, given
            server.folder, server.mode, server.ended = str(folder), mode, threading.Event()
            server.value = str(self.ports[int(value[1:])]) if value.startswith("#") else value
            self.servers.append(server)
            self.ports.append(server.server_port)
            given[str(server.server_port)] = threading.Event()     # whether it has given, or tried to give, more than 20 KB at once
            threading.Thread(target=server.serve_forever, args=(0.05,), daemon=True).start()

    def end(self):
        for it in self.servers:
            it.ended.set()
            it.shutdown()
            it.server_close()


def end_late():
    time.sleep(SECONDS)
    os._exit(0)


if __name__ == "__main__":
    servers = Mirrors(sys.argv[1], sys.argv[2:], log=f"{sys.argv[1]}/requests")
    print(*servers.ports, flush=True)
    threading.Thread(target=end_late, daemon=True).start()
    sys.stdin.read()
    os._exit(0)
