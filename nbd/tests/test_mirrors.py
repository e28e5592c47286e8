"""Mirrors that lie, hang, break off or go away: a read has the blob's bytes or, where no mirror has them, fails and doesn't hang."""
import signal
import threading
import time

from kit import EIO, HELD, LONG, Blob, Kit, Lone, Refused, Served, by, cases, mirrors, words_of

PATIENCE = 30                           # seconds, far above what a read takes of a mirror that answers
HANGS = "never", "stall", "drip", "dripheaders"
# Modes of fetch/tests/mirrors.py.
HOSTILE = ("flip", "noise", "zeros", "some=3", "at=20", "at=70000", "longer", "huge", "claim=9000000", "trunc", "close", "nothttp", "e403", "e404", "e500",
           "norange", "shifted", "unplaced", "badparts", "reversed", "coalesced", "onerange", "several416", "severalwhole", "endless", "gzip", "headers",
           "loop", "tofile", "busy=600", "longheader", "eighth", "wholeflip", "oneconnection=4000000")
# These have all of the blob, and are enough.
ENOUGH = "reversed", "onerange", "several416", "severalwhole", "late=0.01", "eighth"
FALSE = "noise", "zeros", "huge", "e404", "close", "nothttp", "unplaced", "shifted", "norange", "loop", "tofile"


class Gated(mirrors.Mirror):
    """A mirror that answers once its gate is open."""

    def answer(self):
        gate = getattr(self.server, "gate", None)
        if gate:
            gate.wait(HELD)
        super().answer()


def bytes_of_bao(blob, at):
    """The blob's byte that a combined encoding has at a place, or the next one."""
    return next(it.number * by.CHUNK_LEN for it in by.slice_nodes(len(blob.bytes), 0, 2**64 - 1) if not it.is_parent and it.offset + it.size > at)


class Mirrors(cases.Case):
    def reads(self, what, kit, blob, parts=((0, LONG),)):
        client = kit.client()
        self.addCleanup(client.close)
        self.holds(client.size == LONG, f"{what}: {client.size} bytes")
        for at, length in parts:
            self.holds(client.read(at, length) == blob.bytes[at:at + length], f"{what}: {length} bytes from {at} on are others")
        return client

    def until(self, holds):
        end = time.monotonic() + HELD
        while not holds() and time.monotonic() < end:
            time.sleep(0.01)

    def hostile_first(self, mode, form):
        blob = Blob(LONG)
        words = Served(self, blob, mode, "good", form=form).words
        kit = Kit(self, *words, f"patience={PATIENCE}", root=blob.root)
        self.reads(f"{mode}, {form}", kit, blob).close()
        self.holds(kit.stop() == 0, f"{mode}, {form}: nbdkit didn't end with status 0")

    def tried(self, mode):
        for form in ("bao", "plain"):
            self.hostile_first(mode, form)

    def test_hangs(self):
        """A mirror that hangs costs less than its own time."""
        for mode in HANGS:
            blob = Blob(LONG)
            kit = Kit(self, *Served(self, blob, mode, "good").words, f"patience={PATIENCE}", root=blob.root)
            began = time.monotonic()
            self.reads(mode, kit, blob, [(5_000_000, 100_000), (0, 100_000), (LONG - 1000, 1000)])
            self.holds(time.monotonic() - began < PATIENCE, f"{mode}: it was waited for")

    def test_enough(self):
        for mode in ENOUGH:
            for form in ("bao", "plain"):
                blob = Blob(LONG)
                self.reads(f"{mode} alone, {form}", Kit(self, *Served(self, blob, mode, form=form).words, root=blob.root), blob)

    def test_one_connection_at_a_time(self):
        blob = Blob(LONG)
        kit = Kit(self, *Served(self, blob, "oneconnection=4000000").words, "connections=1", root=blob.root)
        self.reads("one connection at a time", kit, blob)

    def test_false_alone(self):
        """No client can open a blob of which no mirror certifies the length."""
        for mode in FALSE:
            blob = Blob(LONG)
            with self.assertRaises(Refused, msg=mode):
                Kit(self, *Served(self, blob, mode).words, "patience=2", root=blob.root).client()

    def test_no_such_root(self):
        words = Served(self, Blob(LONG), "good", "good").words
        kit = Kit(self, *words, root="0" * 64)
        for _ in range(2):
            with self.assertRaises(Refused):
                kit.client()
        self.holds("no mirror has all of it" in kit.said(), kit.said()[-300:])

    def test_another_blob(self):
        """A mirror has an encoding of another blob under the name, whole and true in itself."""
        blob, other = Blob(LONG), Blob(3 << 20)
        for form in ("bao", "plain"):
            words = Served(self, other, "good", form=form).words + Served(self, blob, "good", form=form).words
            self.reads(f"another blob, {form}", Kit(self, *words, root=blob.root), blob)

    def test_a_bad_byte(self):
        """Of the only mirror one byte is false: its chunk fails, each time, and nothing else."""
        blob, at = Blob(LONG), 5_000_000
        first = at // 1024 * 1024
        words = ["url=" + Served(self, blob, f"at={at}", form="plain").words[0].removeprefix("url="), Served(self, blob, "good", form="plain").words[1]]
        client = self.reads("one bad byte", Kit(self, *words, root=blob.root), blob, [(0, first), (first + 1024, LONG - first - 1024)])
        for _ in range(2):
            self.holds(client.error_of(at, 1) == EIO, "no EIO")
            self.holds(client.error_of(first - 10, 20) == EIO, "no EIO")
        self.holds(client.read(first - 10, 10) == blob.bytes[first - 10:first], "the bytes before it")

    def test_bad_bytes_in_each(self):
        """Each of two mirrors has another chunk of the same groups damaged."""
        blob = Blob(LONG)
        for form in ("bao", "plain"):
            self.reads(f"others in each, {form}", Kit(self, *Served(self, blob, "some=7", "some=8", form=form).words, root=blob.root), blob)

    def test_outboards(self):
        """Of two outboard encodings one is false: plain files aren't blamed for it."""
        blob = Blob(LONG)
        false, true = Served(self, blob, "flip", form="plain").words, Served(self, blob, "good", form="plain").words
        kit = Kit(self, true[0], false[1], true[1], root=blob.root)
        self.reads("a false outboard encoding", kit, blob)
        port = true[0].split(":")[2].split("/")[0]
        self.holds(f":{port}/blob: bytes near" not in kit.said(), "the plain file was blamed")

    def test_killed(self):
        """One mirror is killed while the blob is read, then the other, and then one comes back."""
        blob = Blob(48 << 20)
        one, two = Lone(self, blob), Lone(self, blob)
        client = Kit(self, *words_of([one.port, two.port], "bao"), "cache=8M", "readahead=0", root=blob.root).client()
        self.addCleanup(client.close)
        for at in range(0, 24 << 20, 1 << 20):
            if at == 8 << 20:
                one.kill()
            self.holds(client.read(at, 1 << 20) == blob.bytes[at:at + (1 << 20)], f"other bytes at {at}")
        two.kill()
        began = time.monotonic()
        self.holds(client.error_of(40 << 20, 4096) == EIO, "no EIO without mirrors")
        self.holds(time.monotonic() - began < PATIENCE, "EIO came late")
        one.begin()
        self.holds(client.read(40 << 20, 4096) == blob.bytes[40 << 20:(40 << 20) + 4096], "not read again")

    def test_all_fail_at_once(self):
        """Many read the same bytes, and no mirror is there: all fail."""
        blob = Blob(48 << 20)
        one = Lone(self, blob)
        kit = Kit(self, *words_of([one.port], "bao"), "readahead=0", root=blob.root)
        clients, errors = [kit.client() for _ in range(8)], []
        one.kill()
        threads = [threading.Thread(target=lambda it=it: errors.append(it.error_of(30 << 20, 4096))) for it in clients]
        for it in threads:
            it.start()
        for it in threads:
            it.join(HELD)
        self.holds(errors == [EIO] * 8, f"{errors}")
        for it in clients:
            it.close()

    def test_failures_are_shared(self):
        """Many wait for a byte that the only mirror has falsely: it isn't asked for each of them."""
        blob, at = Blob(LONG), 5_000_000
        served = Served(self, blob, f"at={at}", handler=Gated)
        kit = Kit(self, *served.words, "readahead=0", root=blob.root)
        clients, errors = [kit.client() for _ in range(8)], []
        gate = served.servers.servers[0].gate = threading.Event()
        before = served.requests(0)
        where = bytes_of_bao(blob, at)
        threads = [threading.Thread(target=lambda it=it: errors.append(it.error_of(where, 1))) for it in clients]
        for it in threads:
            it.start()
        self.until(lambda: kit.said().count("pread count=1 ") == 8)
        time.sleep(1)                   # (until they wait, too)
        gate.set()
        for it in threads:
            it.join(HELD)
        self.holds(errors == [EIO] * 8, f"{errors}")
        self.holds(0 < served.requests(0) - before < 8, f"{served.requests(0) - before} requests")
        for it in clients:
            it.close()

    def test_ends_while_it_hangs(self):
        """nbdkit ends while a read waits for a mirror that hangs, and while a client opens. (It waits itself for clients that ask nothing.)"""
        for mode in ("stall", "never"):
            blob = Blob(LONG)
            kit = Kit(self, *Served(self, blob, mode).words, "patience=3600", root=blob.root)
            ended = []

            def reads():
                try:
                    client = kit.client()
                    ended.append(client.error_of(5_000_000, 100_000))
                    client.close()
                except (Refused, EOFError, OSError):
                    ended.append("cut")

            thread = threading.Thread(target=reads)
            thread.start()
            thread.join(1)
            self.holds(thread.is_alive(), f"{mode}: the read didn't hang: {ended}")
            self.holds(kit.stop(signal.SIGTERM) == 0, f"{mode}: it didn't end with status 0")
            thread.join(HELD)
            self.holds(ended and ended[0] != 0, f"{mode}: {ended}")


cases.each((f"{it} first", it) for it in HOSTILE)(Mirrors)
