#!/usr/bin/env python3
"""Makes a wheel of the module with its library inside, and prints its path.

usage: python3 python/make_wheel.py LIBRARY FOLDER [LEVEL]

It needs neither setuptools nor a network. The same files give the same bytes; in the wheel they have the time of
SOURCE_DATE_EPOCH, or else of 1980. LEVEL is the processor level that the library was built for. It becomes part of the
wheel's name, since pip knows no levels.
"""
import base64
import hashlib
import os
import pathlib
import re
import sys
import time
import zipfile

HERE = pathlib.Path(__file__).resolve().parent
TAG = "py3-none-linux_x86_64"
OLDEST = 315532800  # 1980-01-01, before which a zip file has no times


def version():
    number = int(re.search(r"#define BW_VERSION (\d+)", (HERE.parent / "c" / "berylwool.h").read_text())[1])
    return f"{number // 10000}.{number // 100 % 100}.{number % 100}"


def files(library, build):
    """The name and the bytes of each file."""
    for it in sorted((HERE / "berylwool").glob("*.py")):
        yield f"berylwool/{it.name}", it.read_bytes()
    yield "berylwool/py.typed", b""
    yield "berylwool/libberylwool.so.0", pathlib.Path(library).read_bytes()
    metadata = {
        "Metadata-Version": "2.1",
        "Name": "berylwool",
        "Version": version(),
        "Summary": "Verified content-addressed storage (BLAKE3, Bao)",
        "Requires-Python": ">=3.8",
    }
    wheel = {"Wheel-Version": "1.0", "Generator": "make_wheel.py", "Root-Is-Purelib": "false", "Tag": TAG, **build}
    for name, fields in (("METADATA", metadata), ("WHEEL", wheel)):
        yield f"berylwool-{version()}.dist-info/{name}", "".join(f"{key}: {it}\n" for key, it in fields.items()).encode()


def main(library, folder, level=""):
    build = {"Build": f"1_{level.replace('-', '_')}"} if level else {}
    path = pathlib.Path(folder, "-".join(["berylwool", version(), *build.values(), TAG]) + ".whl")
    path.parent.mkdir(parents=True, exist_ok=True)
    when = time.gmtime(max(int(os.environ.get("SOURCE_DATE_EPOCH", OLDEST)), OLDEST))[:6]
    record = []
    with zipfile.ZipFile(path, "w", zipfile.ZIP_DEFLATED) as wheel:

        def put(name, data):
            entry = zipfile.ZipInfo(name, when)
            entry.external_attr, entry.compress_type = 0o100644 << 16, zipfile.ZIP_DEFLATED
            wheel.writestr(entry, data)

        for name, data in files(library, build):
            put(name, data)
            digest = base64.urlsafe_b64encode(hashlib.sha256(data).digest()).rstrip(b"=").decode()
            record.append(f"{name},sha256={digest},{len(data)}\n")
        name = f"berylwool-{version()}.dist-info/RECORD"
        put(name, "".join([*record, f"{name},,\n"]))
    print(path)


if __name__ == "__main__":
    if len(sys.argv) not in (3, 4):
        sys.exit(__doc__)
    main(*sys.argv[1:])
