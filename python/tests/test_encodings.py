import asyncio
import itertools
import unittest

from known import ALL, MODES, PLAIN, blob, by, changed, fault, told

import berylwool
from berylwool import Decoder, Outline, Status, VerificationError

LENGTHS = (0, 1, 1023, 1024, 1025, 2048, 2049, 9000)
RANGES = ((0, 0), (0, 1), (1000, 100), (1024, 1024), (3000, ALL), (8999, 1), (9000, 1), (ALL, 1), (0, ALL))
NODES = 5000  # the length of a blob of which each node is damaged


def pieces(data, length):
    return (data[k : k + length] for k in range(0, len(data), length))


def poured(decoder, parts):
    with decoder:
        data = b"".join(map(decoder.update, parts))
        decoder.finish()
    return data


async def awaited(parts):
    for part in parts:
        await asyncio.sleep(0)
        yield part


class Encodings(unittest.TestCase):
    def test_written_as_defined(self):
        for (kind, (words, mode)), length in itertools.product(MODES.items(), LENGTHS):
            with self.subTest(kind=kind, length=length):
                data, root = blob(length), mode.hash(blob(length))
                combined = by.combined(mode, data)
                self.assertEqual(berylwool.encode(data, **words), (root, combined))
                self.assertEqual(berylwool.outboard(data, **words), (root, by.outboard(mode, data)))
                for start, count in RANGES:
                    sliced = by.slice_text(mode, data, start, count)
                    self.assertEqual(berylwool.slice(data, start, count, **words), (root, sliced))
                    self.assertEqual(berylwool.cut_slice(combined, start, count), sliced)

    def test_decoded(self):
        for (kind, (words, _)), length in itertools.product(MODES.items(), LENGTHS):
            data = blob(length)
            root, combined = berylwool.encode(data, **words)
            beside = berylwool.outboard(data, **words).encoding
            with self.subTest(kind=kind, length=length):
                self.assertEqual(berylwool.decode(root, combined, **words), data)
                self.assertEqual(berylwool.decode(root, data, outboard=beside, **words), data)
                for size in (1, 1000, 65_536) if length < 1025 else (1000, 65_536):
                    self.assertEqual(b"".join(berylwool.decode_iter(root, pieces(combined, size), **words)), data)
                for start, count in RANGES:
                    part = berylwool.cut_slice(combined, start, count)
                    last = max(length, 1) - 1 < min(start, max(length, 1) - 1) // 1024 * 1024 + 1024
                    got = berylwool.decode_slice(root, part, start, count, **words)
                    self.assertEqual(got.data, data[start : start + count])
                    self.assertIn(got.length, (length,) if last or start + count >= length else (length, None))
                    self.assertEqual(berylwool.decode(root, combined, start, count, **words), got.data)
                    self.assertEqual(berylwool.decode(root, data, start, count, outboard=beside, **words), got.data)
                    self.assertEqual(berylwool.decode(root, combined, start, **words), data[start:])

    def test_length_is_certified_by_the_last_chunk_alone(self):
        root, combined = berylwool.encode(blob(NODES))
        for start, length in ((0, None), (4095, None), (4096, NODES), (NODES - 1, NODES), (ALL, NODES)):
            part = berylwool.cut_slice(combined, start, 1)
            self.assertEqual(berylwool.decode_slice(root, part, start, 1).length, length)

    def refused(self, wanted, call, *words, **more):
        with self.assertRaises(VerificationError) as caught:
            call(*words, **more)
        self.assertEqual(told(caught.exception), wanted)
        return caught.exception

    def test_faults_as_defined(self):
        for (kind, (words, mode)), (start, length) in itertools.product(MODES.items(), ((0, ALL), (2000, 1100), (ALL, 1))):
            root, text = mode.hash(blob(NODES)), by.slice_text(mode, blob(NODES), start, length)
            nodes = list(by.slice_nodes(NODES, start, length))
            texts = [changed(text, it.offset + it.size // 2) for it in nodes]
            texts += [text[: it.offset] for it in nodes] + [text[:-1], b"", text[:7], text + b"?"]
            texts += [claim.to_bytes(8, "little") + text[8:] for claim in (0, 1, NODES - 1, 2 * NODES, 2**60, ALL)]
            for k, false in enumerate(texts):
                with self.subTest(kind=kind, start=start, text=k):
                    wanted = fault(root, false, start, length, mode)
                    if not wanted:  # a false length, which a slice without the last chunk doesn't certify
                        got = berylwool.decode_slice(root, false, start, length, **words)
                        self.assertEqual(got, (blob(NODES)[start : start + length], None))
                        continue
                    error = self.refused(wanted, berylwool.decode_slice, root, false, start, length, **words)
                    self.assertIn(str(error.at), str(error))
                    if (start, length) == (0, ALL):
                        self.refused(wanted, berylwool.decode, root, false, **words)
                        parts = pieces(false, 3000)
                        self.refused(wanted, lambda: list(berylwool.decode_iter(root, parts, **words)))
                    self.refused(wanted, poured, Decoder(root, start, length, **words), pieces(false, 700))

    def test_places_of_a_node(self):
        root, combined = berylwool.encode(blob(NODES))
        for it in by.slice_nodes(NODES, 0, ALL):
            error = self.refused(fault(root, changed(combined, it.offset)), berylwool.decode, root, changed(combined, it.offset))
            self.assertEqual(error.node[2:], (it.number * 1024, it.length, it.offset))

    def test_range_needs_only_its_chunks(self):
        root, combined = berylwool.encode(blob(NODES))
        damaged = changed(combined, len(combined) - 1)
        self.assertEqual(berylwool.decode(root, damaged, 0, 4096), blob(4096))
        self.assertRaises(VerificationError, berylwool.decode, root, damaged, 4096)

    def test_stream_yields_what_is_verified(self):
        data = blob(70_000)
        root, combined = berylwool.encode(data)
        got = bytearray()
        with self.assertRaises(VerificationError):
            for part in berylwool.decode_iter(root, pieces(changed(combined, 60_000), 5000)):
                got += part
        self.assertTrue(data.startswith(got) and len(got) > 40_000)

    def test_decoder(self):
        data = blob(NODES)
        root, combined = berylwool.encode(data)
        for start, length in RANGES:
            part = by.slice_text(PLAIN, data, start, length)
            first = min(start, NODES - 1) // 1024
            after = (max(min(start + max(length, 1), NODES), 1024 * first + 1) - 1) // 1024 + 1
            for size in (1, 72, 3000):
                self.assertEqual(poured(Decoder(root, start, length), pieces(part, size)), data[1024 * first : 1024 * after])
        # It can be asked before the end, and a fault closes it.
        with Decoder(root) as decoder:
            self.refused((Status.SHORT, 0, (2, 0)), decoder.finish)
            self.assertEqual(decoder.update(combined[:-1]), data[:4096])
            self.refused((Status.SHORT, len(combined) - 904, (1, 4)), decoder.finish)
            self.refused((Status.MISMATCH, len(combined) - 904, (1, 4)), decoder.update, b"?")
            self.assertRaisesRegex(ValueError, "closed", decoder.update, b"")

    def test_awaited_stream(self):
        async def collected(encoding):
            return [part async for part in berylwool.decode_aiter(root, awaited(pieces(encoding, 5000)))]

        data = blob(70_000)
        root, combined = berylwool.encode(data)
        self.assertEqual(b"".join(asyncio.run(collected(combined))), data)
        bad = changed(combined, 60_000)
        self.refused(fault(root, bad), lambda: asyncio.run(collected(bad)))

    def test_stream_without_an_end_is_refused(self):
        root, combined = berylwool.encode(blob(NODES))
        parts = itertools.chain([combined], itertools.repeat(b"more"))
        self.refused((Status.TRAILING, len(combined), None), lambda: list(berylwool.decode_iter(root, parts)))

    def test_damaged_outboard(self):
        root, text = berylwool.outboard(blob(NODES))
        cases = ((changed(text, 100), Status.MISMATCH, 72), (text[:80], Status.SHORT, 72), (text + b"?", Status.TRAILING, len(text)))
        for false, status, at in cases:
            with self.subTest(status=status):
                self.refused((status, at, None), Outline, root, false)
                self.refused((status, at, None), berylwool.decode, root, blob(NODES), outboard=false)

    def test_damaged_copy(self):
        root, beside = berylwool.outboard(blob(NODES))
        cases = (
            (changed(blob(NODES), 2500), (Status.MISMATCH, 2048, (1, 2))),
            (blob(NODES)[:4000], (Status.SHORT, 3072, (1, 3))),
            (blob(NODES) + b"?", (Status.TRAILING, NODES, None)),
            (b"", (Status.SHORT, 0, (1, 0))),
        )
        for copy, wanted in cases:
            with self.subTest(status=wanted[0]):
                self.refused(wanted, berylwool.decode, root, copy, outboard=beside)
        copy = changed(blob(NODES), 2500)
        self.assertEqual(berylwool.decode(root, copy, 3072, outboard=beside), blob(NODES)[3072:])
        error = self.refused((Status.MISMATCH, 0, (1, 2)), berylwool.decode, root, copy, 2500, 1, outboard=beside)
        self.assertEqual(error.node.start, 2048)

    def test_outline(self):
        for length in LENGTHS:
            data = blob(length)
            root, beside = berylwool.outboard(data)
            with self.subTest(length=length), Outline(root, beside) as first, first.share() as outline:
                first.close()
                self.assertEqual(outline.length, length)
                chunks = -(-length // 1024)
                for begin, count in ((0, 1), (0, chunks), (chunks - 1, 1), (1, 2)):
                    if 0 <= begin and begin + count <= max(chunks, 1) and count:
                        part = data[1024 * begin : 1024 * (begin + count)]
                        outline.check(begin, part)
                        self.assertEqual(outline.slice(begin, part), by.slice_text(PLAIN, data, 1024 * begin, 1024 * count))
                        if part:
                            error = self.refused((502, 0, (1, begin)), outline.check, begin, changed(part, 0))
                            self.assertEqual(error.node.start, 1024 * begin)
                self.assertRaises(berylwool.UsageError, outline.check, chunks + 1, b"?")


if __name__ == "__main__":
    unittest.main()
