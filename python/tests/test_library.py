import base64
import ctypes
import hashlib
import importlib.util
import os
import pathlib
import re
import shutil
import subprocess
import sys
import tempfile
import unittest
import zipfile

from known import ROOT, by

import berylwool
import c_header
from berylwool import _c, errors

PYTHON, TESTS = ROOT / "python", ROOT / "python" / "tests"


def run(*words, **more):
    """What a program prints. It finds the module in the repository."""
    env = {**os.environ, "PYTHONPATH": str(PYTHON), "PYTHONDONTWRITEBYTECODE": "1", **more}
    ran = subprocess.run(list(map(str, words)), capture_output=True, text=True, env=env)
    if ran.returncode:
        raise AssertionError(f"{words}: status {ran.returncode}: {ran.stdout}{ran.stderr}")
    return ran.stdout


def shape(kind):
    """A ctypes type by what C makes of it."""
    if hasattr(kind, "_fields_"):
        return [(name, shape(it)) for name, it in kind._fields_]
    return shape(kind._type_) + [...] if isinstance(getattr(kind, "_type_", None), type) and hasattr(kind, "contents") else [kind]


class Library(unittest.TestCase):
    def test_statuses_are_the_header_s(self):
        self.assertEqual({it.name: it.value for it in berylwool.Status}, c_header.STATUSES)
        kinds = dict(re.findall(r"#define BW_NODE_([A-Z]+) (\d)", c_header.TEXT))
        self.assertEqual({it.name: str(it.value) for it in berylwool.NodeKind}, {name: it for name, it in kinds.items() if name != "NONE"})

    def test_functions_are_the_header_s(self):
        for name, kinds in _c.FUNCTIONS.items():
            with self.subTest(name):
                self.assertEqual(list(map(shape, kinds)), list(map(shape, c_header.FUNCTIONS[name])))

    def test_errors_by_status(self):
        memory = set(re.findall(r"\(status\) == BW_(\w+)", c_header.TEXT))
        self.assertEqual({it.name for it in berylwool.Status if it in errors.NoMemoryError.statuses}, memory)
        kinds = [errors.VerificationError, errors.NotHeldError, errors.NoMemoryError, errors.UsageError]
        for it in berylwool.Status:
            self.assertLessEqual(sum(it in kind.statuses for kind in kinds), 1)
        for kind in kinds:
            self.assertTrue(kind.statuses <= set(berylwool.Status))
        for status in (*list(berylwool.Status)[1:], 9999):
            with self.assertRaises(berylwool.BerylwoolError) as caught:
                _c.must(status, ctypes.c_uint64(7))
            self.assertEqual(caught.exception.status, status)

    def test_no_library(self):
        with tempfile.TemporaryDirectory() as folder:
            pathlib.Path(folder, "other.so").write_text("no library")
            for name in ("none.so", "other.so"):
                code = "try:\n    import berylwool\nexcept ImportError as fault:\n    print(fault)"
                said = run(sys.executable, "-c", code, BERYLWOOL_LIBRARY=f"{folder}/{name}")
                self.assertIn("BERYLWOOL_LIBRARY", said)

    def needs(self, name, is_there):
        if not is_there:
            print(f"left out: {self.id()}, since {name} is not installed here")
            self.skipTest(name)

    def test_refused_memory(self):
        self.needs("cc", shutil.which("cc"))
        with tempfile.TemporaryDirectory() as folder:
            shim = f"{folder}/refuse.so"
            run("cc", "-std=c11", "-O1", "-Wall", "-Wextra", "-Werror", "-shared", "-fPIC", TESTS / "refuse.c", "-o", shim)
            run(sys.executable, TESTS / "refused.py", shim, LD_PRELOAD=shim)

    def test_wheel(self):
        with tempfile.TemporaryDirectory() as folder:
            wheels = []
            for name in ("one", "two"):
                words = sys.executable, PYTHON / "make_wheel.py", os.environ["BERYLWOOL_LIBRARY"], f"{folder}/{name}"
                wheels.append(pathlib.Path(run(*words, SOURCE_DATE_EPOCH="1700000000").strip()))
            self.assertEqual(wheels[0].name, wheels[1].name)
            self.assertEqual(wheels[0].read_bytes(), wheels[1].read_bytes())
            with zipfile.ZipFile(wheels[0]) as wheel:
                (record,) = (it for it in wheel.namelist() if it.endswith(".dist-info/RECORD"))
                rows = [row.split(",") for row in wheel.read(record).decode().splitlines()]
                self.assertEqual([row[0] for row in rows], wheel.namelist())
                for name, digest, length in rows[:-1]:
                    data = wheel.read(name)
                    wanted = base64.urlsafe_b64encode(hashlib.sha256(data).digest()).decode().rstrip("=")
                    self.assertEqual((digest, length), (f"sha256={wanted}", str(len(data))))
                self.assertIn("berylwool/py.typed", wheel.namelist())
                wheel.extractall(folder)
            code = "import berylwool; print(berylwool.__file__, berylwool._c.library._name, berylwool.blake3(b'').hex())"
            said = run(sys.executable, "-c", code, PYTHONPATH=folder, BERYLWOOL_LIBRARY="").split()
            inside = f"{folder}/berylwool"
            self.assertEqual(said, [f"{inside}/__init__.py", f"{inside}/libberylwool.so.0", by.Mode().hash(b"").hex()])

    def test_document(self):
        """The example of the guide runs."""
        (code,) = re.findall(r"^```python\n(.*?)^```$", (ROOT / "docs" / "C-API.md").read_text(), re.S | re.M)
        exec(compile(code, "C-API.md", "exec"), {})

    def test_types(self):
        self.needs("mypy", importlib.util.find_spec("mypy"))
        run(sys.executable, "-m", "mypy", "--strict", "--cache-dir", os.devnull, PYTHON / "berylwool", PYTHON / "examples")


if __name__ == "__main__":
    unittest.main()
