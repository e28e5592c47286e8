"""Holds c/berylwool.h to the sources, and runs the C tests, the guide's code and the examples on the C library.

Needs cc. With c++, clang, the sanitizers of cc, valgrind, pkg-config, rustc, cargo and go it runs more, and it names what isn't installed. With BERYLWOOL_CI in the
environment only pkg-config and go may be missing.
"""
import os
import pathlib
import re
import shutil
import subprocess
import sys
import unittest

from cases import LIBRARY, ROOT, Case, Wrong, changed, each, need, once
import definitions
import dist

ARCHIVE = LIBRARY.removesuffix(".so") + ".a"
KINDS = {"hash": 0, "keyed": 1, "derive": 2}

# What each build adds to the compiler's words, by its name.
BUILDS = {
    "plain": ["cc"],
    "clang": ["clang"],
    "asan": ["cc", "-fsanitize=address,undefined", "-fno-sanitize-recover=undefined"],
    "tsan": ["cc", "-fsanitize=thread"],
}

# The example in Python, and where its module lies.
MIRROR = [sys.executable, "python/examples/mirror.py"]
MODULE = {"PYTHONPATH": f"{ROOT}/python", "PYTHONDONTWRITEBYTECODE": "1", "BERYLWOOL_LIBRARY": LIBRARY}


def headers(folder):
    """Writes the rows of b3sum.tsv as C, and the code of the guide, block after block."""
    rows, most = [], 0
    with open(f"{ROOT}/scripts/b3sum.tsv", encoding="utf-8") as it:
        for kind, length, out in (line.rstrip("\n").split("\t") for line in it if not line.startswith("#")):
            most, out_len = max(most, int(length)), len(out) // 2
            rows.append(f"    {{{KINDS[kind]}, {length}, {{{', '.join(map(str, bytes.fromhex(out)))}}}}},")
    text = f"""#include <stdint.h>
enum {{ ROWS_MAX_LEN = {most}, ROW_OUT_LEN = {out_len} }};
#define ROW_KEY "whats the Elvish word for friend"
#define ROW_CONTEXT "BLAKE3 2019-12-27 16:29:52 test vectors context"
typedef struct row {{
    uint32_t kind;
    uint32_t len;
    uint8_t out[ROW_OUT_LEN];
}} row;
static const row rows_of_b3sum[] = {{
"""
    pathlib.Path(folder, "vectors.h").write_text("\n".join([text + "\n".join(rows), "};", ""]))
    blocks = re.findall(r"^```c\n(.*?)^```$", pathlib.Path(ROOT, "docs/C-API.md").read_text(), re.S | re.M)
    pathlib.Path(folder, "guide.h").write_text("\n".join(blocks))


def flags():
    return "-std=c11 -O1 -g -Wall -Wextra -Wpedantic -Werror -pthread".split() + ["-Ic", f"-I{once(headers)}"]


def run(*words, **more):
    """Runs a command at the top of the repository, and fails if it does."""
    ran = subprocess.run(words, **{"cwd": ROOT, "stdout": subprocess.PIPE, "stderr": subprocess.STDOUT, "text": True, "errors": "replace", **more})
    if ran.returncode:
        raise Wrong(f"status {ran.returncode}: {' '.join(words)}\n{ran.stdout or ran.stderr}")
    return ran.stdout


def build(folder, name):
    """Builds the C programs in one way."""
    compiler, *more = BUILDS[name]
    for it in ["test", "test_plan", "guide", "examples/windows"] + ["examples/mirror"] * (name == "plain"):
        run(compiler, *flags(), *more, f"c/{it}.c", ARCHIVE, "-o", f"{folder}/{os.path.basename(it)}")


def released(folder):
    """Lays a release of the library, and moves it."""
    made, release, moved = (pathlib.Path(folder, it) for it in ("made", "release", "moved"))
    made.mkdir()
    for file in (ARCHIVE, LIBRARY):
        shutil.copy(file, made)
    dist.lay_dist(["library"], [("x86-64", str(made)), ("x86-64-v3", str(made))], release)
    release.rename(moved)


def sanitizes(folder, *words):
    """Builds and runs a program that does nothing, with these words of the compiler."""
    run(*words, "-x", "c", "-", "-o", f"{folder}/program", input="int main(void) { return 0; }\n")
    run(f"{folder}/program")


def built(name, program):
    """Returns a program as it was built in one way, and skips the test where that isn't to be had."""
    need(BUILDS[name][0])
    try:
        once(sanitizes, *BUILDS[name])
    except Wrong:
        if os.environ.get("BERYLWOOL_CI"):
            raise
        raise unittest.SkipTest(f"{' '.join(BUILDS[name])} is not installed") from None
    return f"{once(build, name)}/{program}"


@each((f"{program} {name}", name, program) for name in BUILDS for program in ("test", "test_plan", "guide"))
class Programs(Case):
    def tried(self, name, program):
        run(built(name, program))


class Header(Case):
    def test_sources(self):
        tie = f"{self.folder()}/tie.c"
        with open(tie, "w", encoding="utf-8") as it:
            run(sys.executable, "scripts/header.py", "crates/berylwool/src", ARCHIVE, stdout=it, stderr=subprocess.PIPE)
        run("cc", *flags(), "-fsyntax-only", tie)

    def test_kinds(self):
        """A compiler takes each kind of handle where it is asked for and where any is freed, and nothing else there."""
        kinds = {"hasher": "update(at, 0, 0)", "feed": "finish(at, 0, 0, 0)", "outline": "length(at, 0)", "seat": "length(at, 0)", "plan": "limit(at, 0)"}
        calls = {f"bw_{kind}": f"bw_{kind}_{call} + 0" for kind, call in kinds.items()}
        for given in [*calls, "bw_mode", "bw_seat *"]:
            for wanted, call in [*calls.items(), (given if given in calls else "", "bw_free(at)")]:
                text = f"#include <berylwool.h>\nvoid test({given} *at) {{ (void)({call}); }}\n"
                ran = subprocess.run(["cc", *flags(), "-Wno-nonnull", "-fsyntax-only", "-x", "c", "-"], input=text, text=True, capture_output=True, cwd=ROOT)
                self.holds((ran.returncode == 0) == (wanted == given), f"a compiler takes a {given} in {call}, or not its own kind")

    def test_cpp(self):
        need("c++")
        run("c++", "-x", "c++", "-std=c++17", "-Wall", "-Wextra", "-Werror", "-fsyntax-only", "c/berylwool.h")


class Memory(Case):
    def refuse(self):
        program = f"{self.folder()}/refuse"
        run("cc", *flags(), "-Wl,--wrap=malloc,--wrap=realloc", "c/refuse.c", ARCHIVE, "-o", program)
        return program

    def test_refused(self):
        run(self.refuse())

    def test_stack(self):
        program = f"{self.folder()}/stack"
        run("cc", *flags(), "c/stack.c", ARCHIVE, "-o", program)
        run(program)

    def test_leaks(self):
        need("valgrind")
        run("valgrind", "-q", "--leak-check=full", "--error-exitcode=1", built("plain", "test"))

    def test_leaks_of_refused(self):
        need("valgrind")
        run("valgrind", "-q", "--leak-check=full", "--error-exitcode=1", self.refuse())

    def test_threads(self):
        need("valgrind")
        run("valgrind", "-q", "--tool=helgrind", "--error-exitcode=1", built("plain", "test"))


class Examples(Case):
    def mirrors(self, *words, **env):
        """A program that gathers a blob writes it if each of its bytes is good in one of the copies, and else nothing."""
        blob = bytes(i * 7 % 251 for i in range(200_000))
        mode, folder = definitions.Mode(), self.folder()
        root, text = mode.hash(blob), definitions.combined(mode, blob)
        files = [f"{folder}/{k}" for k in range(3)]
        for file, places in zip(files, ((1000,), (150_000,), (1000, 90_000))):
            pathlib.Path(file).write_bytes(changed(text, *places))
        for copies, status, printed in ((files, 0, blob), (files[:1], 1, b"")):
            ran = subprocess.run([*words, root.hex(), *copies], cwd=ROOT, env=os.environ | env, capture_output=True)
            self.holds((ran.returncode, ran.stdout) == (status, printed), f"status {ran.returncode}, {len(ran.stdout)} bytes: {ran.stderr.decode()}")

    def test_c(self):
        self.mirrors(built("plain", "mirror"))

    def test_python(self):
        self.mirrors(*MIRROR, **MODULE)

    def test_rust(self):
        need("rustc")
        program = f"{self.folder()}/example"
        run("rustc", "--edition", "2021", "-O", "-D", "warnings", "-L", os.path.dirname(ARCHIVE), "-l", "static=berylwool", "c/examples/berylwool.rs", "-o", program)
        run(program)


@unittest.skipUnless(shutil.which("pkg-config"), "pkg-config is not installed, so that nobody has used what make dist makes")
class Installed(Examples):
    """The examples are made with what pkg-config says of a release that was moved, and run over its shared library."""

    def setUp(self):
        moved = f"{once(released)}/moved"
        self.knows = {"PKG_CONFIG_PATH": f"{moved}/lib/pkgconfig", "LD_LIBRARY_PATH": f"{moved}/lib"}

    def test_c(self):
        program = f"{self.folder()}/mirror"
        told = run("pkg-config", "--cflags", "--libs", "berylwool", env=os.environ | self.knows).split()
        run("cc", "-std=c11", "-Wall", "-Wextra", "-Werror", "-pthread", "c/examples/mirror.c", *told, "-o", program)
        self.mirrors(program, **self.knows)

    def test_python(self):
        module = {name: it for name, it in MODULE.items() if name != "BERYLWOOL_LIBRARY"}
        self.mirrors(*MIRROR, **self.knows, **module)

    def copied(self, *names):
        """Copies files of an example to a folder of the test's own: there Go doesn't take the flags that an earlier run got."""
        folder = self.folder()
        for name in names:
            shutil.copy(f"{ROOT}/c/examples/{name}", folder)
        return folder

    def test_rust(self):
        need("cargo")
        folder = self.copied("Cargo.toml", "build.rs", "berylwool.rs")
        run("cargo", "run", "-q", "--offline", "--manifest-path", f"{folder}/Cargo.toml", env=os.environ | self.knows)

    @unittest.skipUnless(shutil.which("go"), "go is not installed, so that c/examples/berylwool.go is text alone")
    def test_go(self):
        run("go", "run", f"{self.copied('berylwool.go')}/berylwool.go", env=os.environ | self.knows)
