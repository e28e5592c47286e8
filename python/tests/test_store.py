import gc
import threading
import unittest

from known import ALL, KEY, PLAIN, blob, by, changed

import berylwool
from berylwool import Committed, NodeKind, NotHeldError, Outline, Report, Status, Store, VerificationError

DATA = blob(200_000)  # 196 chunks, in groups of 64, 64, 64 and 4
CHUNKS, GROUPS, GROUP_LEN = 196, 4, 65_536
ROOT, COMBINED = berylwool.encode(DATA)
# Each byte is good in one of these, and no group of 64 chunks in all of them.
COPIES = (changed(COMBINED, 1000, 90_000), changed(COMBINED, 150_000), changed(COMBINED, 30_000, 212_000))
TAIL = berylwool.cut_slice(COMBINED, ALL, 1)


def group_of(copy, group):
    return GROUP_LEN * group, GROUP_LEN, berylwool.cut_slice(copy, GROUP_LEN * group, GROUP_LEN)


class Stores(unittest.TestCase):
    def status(self, wanted, call, *words, kind=berylwool.BerylwoolError):
        with self.assertRaises(kind) as caught:
            call(*words)
        self.assertEqual(caught.exception.status, wanted)
        return caught.exception

    def test_two_threads_gather(self):
        faults = []

        def work(seat, number):
            try:
                with seat:
                    for k in range(len(COPIES)):
                        seat.gather(COPIES[(number + k) % len(COPIES)], number, 2)
            except Exception as fault:
                faults.append(fault)

        with Store(ROOT, 256) as store:
            threads = [threading.Thread(target=work, args=(store.split(), number)) for number in range(2)]
            for it in threads:
                it.start()
            for it in threads:
                it.join()
            self.assertEqual(faults, [])
            for copy in COPIES:
                store.gather(copy)
            self.assertEqual(store.finish(), DATA)
            self.assertEqual(store.serve(0, ALL), COMBINED)

    def test_two_threads_take_commit_and_give(self):
        """Each chunk is granted to one of two threads, which commit it or give it back at last."""
        granted, faults = [], []

        def work(seat, copies):
            try:
                with seat:
                    for group in range(GROUPS):
                        mask = seat.take(group)
                        granted.append((group, mask))
                        for copy in copies:
                            try:
                                seat.commit_chunks(*group_of(copy, group))
                            except VerificationError:
                                continue
                        seat.give(group)
            except Exception as fault:
                faults.append(fault)

        with Store(ROOT, CHUNKS) as store:
            seats = store.split(), store.split()
            threads = [threading.Thread(target=work, args=it) for it in zip(seats, (COPIES, COPIES[::-1]))]
            for it in threads:
                it.start()
            for it in threads:
                it.join()
            self.assertEqual(faults, [])
            self.assertEqual([store.held(group) for group in range(GROUPS)], [ALL, ALL, ALL, 15])
            self.assertEqual(store.read(0, len(DATA)), DATA)
            for group in range(GROUPS):
                ours = [mask for it, mask in granted if it == group]
                self.assertEqual((ours[0] & ours[1], ours[0] | ours[1]), (0, ALL if group < 3 else 15))

    def test_claims(self):
        with Store(ROOT, CHUNKS) as store, store.split() as other:
            self.assertEqual(store.take(0, 0b1110), 0b1110)
            self.assertEqual(other.take(0, 0b11), 1)
            self.assertEqual(store.give(0, 0b11), 0b10)
            self.assertEqual(other.take(0, 0b1111), 0b10)
            self.assertEqual(other.commit_chunks(0, 4096, berylwool.cut_slice(COMBINED, 0, 4096)), 2)
            self.assertEqual((store.held(0), store.take(0, 0b11), other.give(0)), (0b11, 0, 0))
            # What a seat claims is given back when it is closed, or collected.
            other.close()
            with store.split() as third:
                self.assertEqual(third.take(0), ALL - 0b1111)
                store.close()
                self.assertEqual(third.take(0), 0b1100)
                dropped = third.split()
                self.assertEqual((third.give(0), dropped.take(0)), (ALL - 0b11, ALL - 0b11))
                del dropped
                gc.collect()
                self.assertEqual(third.take(0), ALL - 0b11)

    def test_one_thread(self):
        with Store(ROOT, CHUNKS) as store:
            self.assertIsNone(store.length)
            self.status(Status.NO_LENGTH, store.serve, 0, 1, kind=NotHeldError)
            self.status(Status.UNFINISHED, store.finish, kind=NotHeldError)
            self.status(Status.OTHER_LENGTH, store.commit, *group_of(COMBINED, 0))
            self.status(Status.MISMATCH, store.settle, berylwool.cut_slice(COMBINED, 0, 1), kind=VerificationError)
            store.settle(TAIL)
            self.assertEqual(store.length, len(DATA))
            error = self.status(Status.LACKING, store.serve, 0, 1, kind=NotHeldError)
            self.assertEqual(error.node, (NodeKind.PARENT, 128, None, None, None))
            self.assertEqual(error.at, None)
            self.assertEqual(store.commit(*group_of(COMBINED, 1)), Committed(64, 65))
            self.assertEqual(store.commit(*group_of(COMBINED, 1)), Committed(0, 0))
            for start, length in ((GROUP_LEN, 1), (GROUP_LEN + 5, 20_000), (GROUP_LEN, GROUP_LEN)):
                self.assertEqual(store.serve(start, length), by.slice_text(PLAIN, DATA, start, length))
            error = self.status(Status.LACKING, store.serve, 0, GROUP_LEN, kind=NotHeldError)
            self.assertEqual(error.node[:2], (NodeKind.PARENT, 32))
            error = self.status(Status.MISSING, store.read, 2 * GROUP_LEN - 10, ALL, kind=NotHeldError)
            self.assertEqual((error.at, error.node), (2 * GROUP_LEN, None))
            self.assertEqual(store.read(2 * GROUP_LEN - 10, 10), DATA[2 * GROUP_LEN - 10 : 2 * GROUP_LEN])
            self.assertEqual(store.commit_chunks(0, GROUP_LEN, berylwool.cut_slice(COMBINED, 0, GROUP_LEN)), 64)
            self.assertEqual(store.read(0, 2 * GROUP_LEN), DATA[: 2 * GROUP_LEN])
            report = store.gather(COMBINED)
            self.assertEqual((report.committed, report.memory, report.too_large), (CHUNKS - 128, 0, False))
            self.assertEqual(store.finish(), DATA)
            self.assertEqual(store.read(0, 0), b"")

    def test_damaged_slices(self):
        start, length, text = group_of(changed(COMBINED, 10_000), 0)
        with Store(ROOT, CHUNKS) as store:
            store.settle(TAIL)
            store.take(0)
            for call in (store.commit, store.commit_chunks):
                with self.subTest(call.__name__):
                    error = self.status(Status.MISMATCH, call, start, length, text, kind=VerificationError)
                    self.assertEqual((error.node.kind, error.node.combined_at), (NodeKind.CHUNK, error.at))
                    self.assertTrue(error.at <= 10_000 < error.at + 1024)
            self.assertEqual(store.held(0), 0)
            self.status(Status.MISMATCH, store.settle, changed(TAIL, -1), kind=VerificationError)

    def test_salvage(self):
        copies = tuple(changed(COMBINED, 3000 + 2000 * k, 212_000 - 3000 * k) for k in range(2))
        with Store(ROOT, CHUNKS) as store:
            for copy in copies:
                store.gather(copy)
            self.assertEqual((store.held(0), store.held(3)), (0, 0))
            for copy in copies:
                store.salvage(copy)
            self.assertEqual(store.finish(), DATA)

    def test_reports(self):
        with Store(ROOT, CHUNKS - 1) as store:
            self.assertEqual(store.gather(COMBINED), Report(0, 0, 1, 0, 0, 0, True))
            self.status(Status.TOO_LARGE, store.settle, TAIL)
        with Store(ROOT, CHUNKS) as store:
            self.assertEqual(store.gather(b"no encoding")[:2], (0, 0))
            report = store.gather(COMBINED)
            self.assertEqual((report.committed, report.parents), (CHUNKS, CHUNKS - 1))

    def test_part(self):
        with Store(ROOT, 64, 100) as part:
            self.assertEqual(part.commit_chunks(0, ALL, COMBINED), 64)
            self.assertEqual((part.held(0), part.length), (ALL, None))
            self.assertEqual(part.read(5, GROUP_LEN - 5), DATA[102_405 : 102_400 + GROUP_LEN])
            self.assertEqual(self.status(Status.MISSING, part.read, 1, GROUP_LEN).at, GROUP_LEN)
            self.status(Status.TOO_LARGE, part.settle, TAIL)

    def test_beside_an_outline(self):
        beside = berylwool.outboard(DATA).encoding
        with Store(ROOT, CHUNKS) as store, Outline(ROOT, beside) as outline:
            store.settle(outline.slice(CHUNKS - 1, DATA[1024 * (CHUNKS - 1) :]))
            self.assertEqual(outline.commit(store, 0, DATA), Committed(CHUNKS, CHUNKS - 1))
            self.assertEqual(store.finish(), DATA)
            error = self.status(Status.MISMATCH, outline.commit, store, 0, changed(DATA, 3000), kind=VerificationError)
            self.assertEqual((error.at, error.node), (2048, (NodeKind.CHUNK, 2, 2048, None, None)))
            self.status(Status.NO_CHUNKS, outline.commit, store, 3, DATA, kind=berylwool.UsageError)
            with Store(bytes(32), CHUNKS) as other:
                self.status(Status.OTHER_ROOT, outline.commit, other, 0, DATA, kind=berylwool.UsageError)

    def test_modes_and_short_blobs(self):
        for words in ({}, {"key": KEY}, {"context": "a context"}):
            for length in (0, 1, 1024, 1025):
                root, combined = berylwool.encode(blob(length), **words)
                with self.subTest(words=words, length=length), Store(root, 2, **words) as store:
                    store.gather(combined)
                    self.assertEqual((store.finish(), store.length), (blob(length), length))
                    self.assertEqual(store.serve(0, ALL), combined)
                    self.assertEqual(store.read(0, length), blob(length))


if __name__ == "__main__":
    unittest.main()
