"""Reads through nbdkit of what true mirrors have, among them false ones."""
import pathlib
import random
import signal
import subprocess
import threading

from kit import HELD, LONG, Blob, Kit, Refused, Served, cases, parts_of, run

MIB = 1 << 20
LENGTHS = 0, 1, 1023, 1024, 1025, 65_535, 65_536, 65_537, MIB, MIB + 1, 3 * MIB + 1
KEY = "77686174732074686520456c7669736820776f726420666f7220667269656e64"
CONTEXT = "berylwool 2026-12-01 tests of the plugin, wool \N{SHEEP}"
FORMS = "bao", "plain"


class Reads(cases.Case):
    def has_all(self, what, kit, blob, most=300_000):
        """Each byte is the blob's, read in parts in an order that is drawn."""
        client = kit.client()
        self.addCleanup(client.close)
        self.holds(client.size == len(blob.bytes), f"{what}: {client.size} bytes, and not {len(blob.bytes)}")
        for at, length in parts_of(len(blob.bytes), most, len(blob.bytes)):
            if client.read(at, length) != blob.bytes[at:at + length]:
                return self.holds(False, f"{what}: {length} bytes from {at} on are others")
        return self.holds(True, what)

    def test_lengths(self):
        for length in LENGTHS:
            for form in FORMS:
                blob = Blob(length)
                self.has_all(f"{length} bytes, {form}", Kit(self, *Served(self, blob, "good", form=form).words, root=blob.root), blob)

    def test_keys(self):
        blob, file = Blob(65_537, KEY), pathlib.Path(self.folder(), "key")
        file.write_text(f"{KEY}\n")
        words = Served(self, blob, "good").words
        self.has_all("keyed", Kit(self, f"key-file={file}", *words, root=blob.root), blob)
        with self.assertRaises(Refused):
            Kit(self, *words, root=blob.root).client()
        blob = Blob(65_537, CONTEXT)
        self.has_all("derived", Kit(self, f"context={CONTEXT}", *Served(self, blob, "good").words, root=blob.root), blob)

    def test_https(self):
        """A certificate is believed where SSL_CERT_FILE has who signed it."""
        cases.need("openssl")
        blob = Blob(LONG)
        named = "-subj", "/CN=127.0.0.1", "-addext", "subjectAltName=IP:127.0.0.1"
        run("openssl", "req", "-x509", "-newkey", "rsa:2048", "-nodes", *named, "-keyout", "key.pem", "-out", "cert.pem", cwd=blob.folder, check=True)
        words = [it.replace("http:", "https:") for it in Served(self, blob, "tls:good").words]
        self.has_all("https", Kit(self, *words, root=blob.root, env={"SSL_CERT_FILE": f"{blob.folder}/cert.pem"}), blob)
        with self.assertRaises(Refused):
            Kit(self, *words, root=blob.root).client()

    def test_mirrors_in_a_file(self):
        blob, file = Blob(LONG), pathlib.Path(self.folder(), "mirrors")
        first, second = (it.removeprefix("url=") for it in Served(self, blob, "noise", "good").words)
        file.write_text(f"# mirrors\n\n  {first}\r\n{second}\n")
        self.has_all("mirrors=", Kit(self, f"mirrors={file}", root=blob.root), blob)

    def test_threads(self):
        """Eight connections read at random, with two liars and one true mirror."""
        blob = Blob(LONG)
        for form in FORMS:
            kit = Kit(self, *Served(self, blob, "flip", "some=7", "good", form=form).words, "cache=8M", root=blob.root)
            wrong = []

            def reads(seed):
                drawn, client = random.Random(seed), kit.client()
                for _ in range(100):
                    at, length = drawn.randrange(LONG), drawn.randrange(1, 200_000)
                    length = min(length, LONG - at)
                    if client.read(at, length) != blob.bytes[at:at + length]:
                        wrong.append((at, length))
                client.close()

            threads = [threading.Thread(target=reads, args=(it,)) for it in range(8)]
            for it in threads:
                it.start()
            for it in threads:
                it.join()
            self.holds(not wrong, f"{form}: others at {wrong}")

    def test_one_connection(self):
        blob = Blob(LONG)
        self.has_all("connections=1", Kit(self, *Served(self, blob, "good").words, "connections=1", root=blob.root), blob)

    def test_no_reading_ahead(self):
        blob = Blob(LONG)
        self.has_all("readahead=0", Kit(self, *Served(self, blob, "good").words, "readahead=0", root=blob.root), blob)

    def test_cache(self):
        """What a client asks to be cached is read without a mirror afterwards."""
        blob, served = Blob(LONG), None
        served = Served(self, blob, "good")
        kit = Kit(self, *served.words, root=blob.root)
        client = kit.client()
        client.cache(2 * MIB, MIB)
        self.holds(client.read(2 * MIB, MIB) == blob.bytes[2 * MIB:3 * MIB], "other bytes")
        before = served.requests(0)
        client.read(2 * MIB + 7, MIB - 7)
        self.holds(served.requests(0) == before, "the mirror was asked again")
        client.close()

    def test_nbdcopy(self):
        cases.need("nbdcopy")
        blob, out = Blob(LONG), pathlib.Path(self.folder(), "out")
        for form in FORMS:
            kit = Kit(self, *Served(self, blob, "noise", "good", "flip", form=form).words, root=blob.root)
            ran = run("nbdcopy", kit.uri, out)
            self.holds(ran.returncode == 0 and out.read_bytes() == blob.bytes, f"nbdcopy, {form}: {ran.stderr}")
            self.holds(kit.stop() == 0, "nbdkit didn't end with status 0")

    def test_qemu_img(self):
        cases.need("qemu-img")
        blob = Blob(3 * MIB)
        kit = Kit(self, *Served(self, blob, "good").words, root=blob.root)
        ran = run("qemu-img", "compare", "-f", "raw", "-F", "raw", kit.uri, f"{blob.folder}/blob")
        self.holds("identical" in ran.stdout, f"qemu-img compare: {ran.stdout}{ran.stderr}")

    def test_memory(self):
        """A blob that is far longer than the cache is read in bounded memory, twice."""
        blob = Blob(48 * MIB)
        for form in FORMS:
            kit = Kit(self, *Served(self, blob, "good", form=form).words, "cache=4M", root=blob.root)
            client = kit.client()
            before = kit.peak()
            for at in [*range(0, 48 * MIB, MIB), *range(0, 48 * MIB, 7 * MIB // 2)]:
                self.assertEqual(client.read(at, 4096), blob.bytes[at:at + 4096])
            for at in range(0, 48 * MIB, MIB // 4):          # nbdkit keeps a buffer of the longest read in each thread
                self.assertEqual(client.read(at, MIB // 4), blob.bytes[at:at + MIB // 4])
            client.close()
            self.holds(kit.peak() - before < 24 * MIB, f"{form}: {kit.peak() - before >> 20} MiB more than at first")

    def test_killed(self):
        """nbdkit ends at once in the middle of a copy, and the next one serves the same."""
        cases.need("nbdcopy")
        blob = Blob(48 * MIB)
        words = Served(self, blob, f"slow={4 * MIB}").words
        for number, status in ((15, 0), (9, -9)):
            kit = Kit(self, *words, root=blob.root)
            copy = subprocess.Popen(["nbdcopy", kit.uri, "null:"], stderr=subprocess.DEVNULL)
            client = kit.client()
            client.read(10 * MIB, 4096)
            client.close()
            ended = kit.stop(number)
            # (nbdkit 1.32 fails an assertion of its own where a client goes away while several replies are sent to it)
            is_own = ended == -signal.SIGABRT and "raw_send_socket: Assertion" in kit.said()
            self.holds(ended == status or is_own, f"signal {number}: status {ended}: {kit.said()[-600:]}")
            self.holds(copy.wait(HELD) != 0, "the copy succeeded")
        blob = Blob(LONG)
        self.has_all("afterwards", Kit(self, *Served(self, blob, "good").words, root=blob.root), blob)
