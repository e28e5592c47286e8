import copy
import pickle
import unittest

from known import ALL, blob

import berylwool
from berylwool import Blake3, NoMemoryError, Outline, Status, Store, UsageError, VerificationError

DATA = blob(5000)
ROOT, COMBINED = berylwool.encode(DATA)
BESIDE = berylwool.outboard(DATA).encoding
STORE, OUTLINE = Store(ROOT, 5), Outline(ROOT, BESIDE)

# Each wrong call, and what it raises.
WRONG = (
    (TypeError, berylwool.blake3, "text"),
    (TypeError, berylwool.blake3, 5),
    (TypeError, Blake3().update, None),
    (BufferError, berylwool.blake3, memoryview(b"abcd")[::2]),
    (ValueError, berylwool.blake3, b"", -1),
    (ValueError, berylwool.blake3, b"", 32, -1),
    (ValueError, berylwool.blake3, b"", 32, 2**64),
    (TypeError, berylwool.blake3, b"", 32.0),
    (UsageError, berylwool.blake3, b"", 32, ALL),
    (UsageError, Blake3().digest, 2, ALL - 1),
    (ValueError, Blake3().digest, 2**64),
    ((MemoryError, OverflowError), Blake3().digest, 2**63 - 1),
    (TypeError, berylwool.hash_file, 0),
    (TypeError, berylwool.encode, "text"),
    (TypeError, berylwool.cut_slice, COMBINED, 0.5, 1),
    (ValueError, berylwool.cut_slice, COMBINED, -1, 1),
    (ValueError, berylwool.cut_slice, COMBINED, 0, 2**64),
    (ValueError, berylwool.decode, ROOT[:31], COMBINED),
    (TypeError, berylwool.decode, ROOT.hex(), COMBINED),
    (ValueError, berylwool.decode, ROOT, COMBINED, 0, -1),
    (ValueError, berylwool.decode_slice, ROOT, COMBINED, 2**64, 1),
    (VerificationError, berylwool.decode, bytes(32), COMBINED),
    (TypeError, lambda: list(berylwool.decode_iter(ROOT, [1]))),
    (TypeError, lambda: list(berylwool.decode_iter(ROOT, COMBINED))),
    (UsageError, Store, ROOT, 0),
    (UsageError, Store, ROOT, 65_537),
    (UsageError, Store, ROOT, 1, 2**54 + 1),
    (ValueError, Store, ROOT, 2**32 + 1),
    (ValueError, Store, ROOT, 1, -1),
    (ValueError, Store, b"", 1),
    (UsageError, STORE.take, 1),
    (UsageError, STORE.held, 1),
    (ValueError, STORE.take, 2**32),
    (ValueError, STORE.take, 0, 2**64),
    (ValueError, STORE.give, 0, -1),
    (ValueError, STORE.commit, -1, 1, COMBINED),
    (ValueError, STORE.commit, 0, 2**64, COMBINED),
    (ValueError, STORE.gather, COMBINED, 1, 1),
    (ValueError, STORE.gather, COMBINED, 0, 0),
    (ValueError, STORE.read, -1, 1),
    (ValueError, STORE.serve, 0, -1),
    (UsageError, OUTLINE.check, 4, bytes(2048)),
    (UsageError, OUTLINE.check, ALL, b"?"),
    (ValueError, OUTLINE.check, -1, b"?"),
    (ValueError, OUTLINE.slice, 2**54 + 1, b"?"),
    (ValueError, OUTLINE.decode, DATA, 0, 2**64),
)


class Usage(unittest.TestCase):
    def test_wrong_calls(self):
        for k, (kind, call, *words) in enumerate(WRONG):
            with self.subTest(case=k, call=call):
                self.assertRaises(kind, call, *words)

    def test_modes(self):
        wrong = (
            (ValueError, {"key": b"short"}), (TypeError, {"key": "k" * 32}), (TypeError, {"context": b"bytes"}),
            (UnicodeEncodeError, {"context": "\ud800"}), (ValueError, {"key": bytes(32), "context": "both"}),
        )  # fmt: skip
        calls = (
            berylwool.blake3, Blake3, berylwool.encode, berylwool.outboard,
            lambda data, **mode: berylwool.decode(ROOT, data, **mode),
            lambda data, **mode: list(berylwool.decode_iter(ROOT, [data], **mode)),
            lambda data, **mode: berylwool.Decoder(ROOT, **mode),
            lambda data, **mode: Store(ROOT, 1, **mode), lambda data, **mode: Outline(ROOT, data, **mode),
        )  # fmt: skip
        for k, call in enumerate(calls):
            for kind, words in wrong:
                with self.subTest(call=k, words=words):
                    self.assertRaises(kind, call, COMBINED, **words)

    def test_another_mode_is_another_root(self):
        self.assertRaises(VerificationError, berylwool.decode, ROOT, COMBINED, key=bytes(32))
        self.assertRaises(VerificationError, Outline, ROOT, BESIDE, context="a context")

    def test_closed(self):
        calls = {
            Outline(ROOT, BESIDE): (
                lambda it: it.length, lambda it: it.check(0, DATA), lambda it: it.slice(0, DATA), lambda it: it.share(),
                lambda it: it.decode(DATA), lambda it: it.commit(STORE, 0, DATA),
            ),
            Store(ROOT, 5): (
                lambda it: it.length, lambda it: it.split(), lambda it: it.take(0), lambda it: it.give(0),
                lambda it: it.held(0), lambda it: it.settle(COMBINED),
                lambda it: it.commit(0, ALL, COMBINED), lambda it: it.commit_chunks(0, ALL, COMBINED),
                lambda it: it.gather(COMBINED), lambda it: it.salvage(COMBINED), lambda it: it.read(0, 1),
                lambda it: it.serve(0, 1), lambda it: it.finish(), lambda it: OUTLINE.commit(it, 0, DATA),
            ),
        }  # fmt: skip
        for it, uses in calls.items():
            it.close()
            it.close()
            for k, use in enumerate(uses):
                with self.subTest(it=it, use=k):
                    self.assertRaisesRegex(ValueError, "closed", use, it)
        # A fault on the way in leaves nothing open.
        with self.assertRaises(ZeroDivisionError), Store(ROOT, 5) as store:
            raise ZeroDivisionError
        self.assertRaisesRegex(ValueError, "this Store is closed", store.held, 0)

    def test_nothing_is_copied(self):
        for it in (STORE, OUTLINE, Blake3(), berylwool.Decoder(ROOT)):
            for call in (copy.copy, copy.deepcopy, pickle.dumps):
                self.assertRaisesRegex(TypeError, "can't be copied", call, it)

    def test_errors(self):
        with self.assertRaises(VerificationError) as caught:
            berylwool.decode(ROOT, COMBINED[:-1])
        again = pickle.loads(pickle.dumps(caught.exception))
        self.assertEqual((again.status, again.at, again.node), (Status.SHORT, 4360, caught.exception.node))
        self.assertEqual(str(again), str(caught.exception))
        self.assertTrue(issubclass(NoMemoryError, MemoryError) and issubclass(UsageError, ValueError))


if __name__ == "__main__":
    unittest.main()
