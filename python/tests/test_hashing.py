import array
import concurrent.futures
import ctypes
import mmap
import shutil
import subprocess
import tempfile
import unittest

from known import KEY, MODES, ROOT, blob

import berylwool
from berylwool import Blake3, blake3, hash_file

LONG = 3 * (1 << 20) + 1


def rows():
    """The mode, the length and the output of each of BLAKE3's test vectors."""
    for line in (ROOT / "scripts" / "b3sum.tsv").read_text().splitlines():
        if not line.startswith("#"):
            kind, length, out = line.split("\t")
            yield kind, int(length), bytes.fromhex(out)


class Hashing(unittest.TestCase):
    def test_vectors(self):
        for kind, length, wanted in rows():
            with self.subTest(kind=kind, length=length):
                words, data = MODES[kind][0], blob(length)
                self.assertEqual(blake3(data, len(wanted), **words), wanted)
                with Blake3(data[:700], **words) as hasher:
                    hasher.update(data[700:])
                    self.assertEqual(hasher.digest(), wanted[:32])
                    self.assertEqual(hasher.hexdigest(50, 81), wanted[81:131].hex())

    def test_seek(self):
        for kind, (words, by_definition) in MODES.items():
            for length, seek in ((0, 0), (1, 63), (64, 64), (200, 1000), (100, 2**40 - 3), (5, 2**64 - 6)):
                with self.subTest(kind=kind, length=length, seek=seek):
                    wanted = by_definition.output(blob(1500), seek, length)
                    self.assertEqual(blake3(blob(1500), length, seek, **words), wanted)
                    self.assertEqual(Blake3(blob(1500), **words).digest(length, seek), wanted)

    def test_goes_on_after_a_digest(self):
        hasher = Blake3()
        for k in range(0, 5000, 999):
            self.assertEqual(hasher.digest(), blake3(blob(k)))
            hasher.update(blob(5000)[k : k + 999])

    def test_copies_go_on_apart(self):
        for kind, (words, by_definition) in MODES.items():
            for length in (0, 700, 8192, 8193, 20_000):
                with self.subTest(kind=kind, length=length):
                    hasher, wanted = Blake3(blob(length), **words), by_definition.hash(blob(length) + b"its own")
                    with hasher.copy() as other:
                        other.update(b"another's")
                        hasher.update(b"its own")
                        self.assertEqual(other.digest(), by_definition.hash(blob(length) + b"another's"))
                        again = hasher.copy()
                        hasher.close()
                        self.assertEqual(again.digest(), wanted)

    def test_buffers(self):
        data = blob(4096)
        with tempfile.TemporaryFile() as file, mmap.mmap(-1, 4096) as written:
            file.write(data)
            file.flush()
            written[:] = data
            with mmap.mmap(file.fileno(), 4096, access=mmap.ACCESS_READ) as mapped:
                buffers = (
                    bytearray(data), memoryview(data), memoryview(b"?" + data + b"?")[1:-1], array.array("I", data),
                    (ctypes.c_uint16 * 2048).from_buffer_copy(data), mapped, written,
                )  # fmt: skip
                for it in buffers:
                    with self.subTest(type=type(it)):
                        self.assertEqual(blake3(it), blake3(data))
                        self.assertEqual(Blake3(it).digest(), blake3(data))
        for it in (b"", bytearray(), memoryview(b""), array.array("Q")):
            with self.subTest(type=type(it)):
                self.assertEqual(blake3(it), blake3(b""))

    def test_buffer_is_held_only_meanwhile(self):
        data = bytearray(blob(100))
        with Blake3(data) as hasher:
            data.clear()
            self.assertEqual(hasher.digest(), blake3(blob(100)))

    def test_attributes(self):
        with Blake3() as hasher:
            self.assertEqual((hasher.name, hasher.digest_size, hasher.block_size), ("blake3", 32, 64))

    def test_files(self):
        with tempfile.NamedTemporaryFile() as file:
            for length in (0, 1, 1 << 20, LONG):
                file.truncate(0)
                file.seek(0)
                file.write(blob(length))
                file.flush()
                with self.subTest(length=length):
                    self.assertEqual(hash_file(file.name), blake3(blob(length)))
                    self.assertEqual(hash_file(file.name, 40, 7, key=KEY), blake3(blob(length), 40, 7, key=KEY))
            if shutil.which("b3sum"):
                said = subprocess.run(["b3sum", "--no-names", file.name], capture_output=True, text=True, check=True)
                self.assertEqual(hash_file(file.name).hex(), said.stdout.strip())
        self.assertRaises(FileNotFoundError, hash_file, file.name)

    def test_threads(self):
        data = blob(LONG)
        with concurrent.futures.ThreadPoolExecutor(4) as pool:
            self.assertEqual(set(pool.map(blake3, [data] * 8)), {blake3(data)})
            # Calls on one object wait for each other. Equal parts give the same hash in any order.
            with Blake3() as hasher:
                list(pool.map(hasher.update, [data] * 8))
                self.assertEqual(hasher.digest(), blake3(data * 8))

    def test_closed(self):
        hasher = Blake3()
        hasher.close()
        hasher.close()
        for call in (hasher.digest, hasher.hexdigest, hasher.copy, lambda: hasher.update(b""), hasher.__enter__):
            self.assertRaises(ValueError, call)

    def test_version(self):
        major, minor, patch = map(int, berylwool.__version__.split("."))
        self.assertIn(f"BW_VERSION {10000 * major + 100 * minor + patch}\n", (ROOT / "c" / "berylwool.h").read_text())


if __name__ == "__main__":
    unittest.main()
