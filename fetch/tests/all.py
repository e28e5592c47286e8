#!/usr/bin/env python3
"""Builds bw-fetch in several ways and runs its tests on each.

    all.py [DRAWN]        DRAWN fetches from drawn mirrors; 4000 where it is left out

At the top of the repository, after the C library was built. Needs cc and libcurl with its headers. With clang and the sanitizers of cc it does more, and names
what isn't installed; with BERYLWOOL_CI in the environment nothing of these may be missing. Its last line is 'bw-fetch passed'.
"""
import concurrent.futures
import os
import pathlib
import re
import shutil
import subprocess
import sys

HERE = pathlib.Path(__file__).resolve().parent
ROOT = HERE.parent.parent
OUT = ROOT / "out" / "fetch"
ARCHIVE = ROOT / "out" / "libberylwool.a"
WARNINGS = "-std=c11 -Wall -Wextra -Wshadow -Werror -pthread".split()
WRAPPED = "-Wl,--wrap=malloc,--wrap=calloc,--wrap=realloc,--wrap=curl_global_init,--wrap=fsync,--wrap=flock,--wrap=pread,--wrap=pthread_create,--wrap=curl_easy_setopt"
SANITIZERS = {"asan": "-fsanitize=address,undefined", "tsan": "-fsanitize=thread"}
DELAYED = "-Wl,--wrap=pthread_mutex_lock,--wrap=pthread_mutex_unlock,--wrap=pthread_cond_wait,--wrap=pthread_cond_signal"

AT_ONCE = 6

# The large cases show nothing more under a sanitizer, where they take long.
LARGE = "64 MiB", "little memory"


def run(*words, **more):
    """Prints at once what it printed, since others run beside it."""
    words = [str(it) for it in words]
    ran = subprocess.run(words, **{"cwd": ROOT, "stdout": subprocess.PIPE, "stderr": subprocess.STDOUT, "text": True, **more})
    print(ran.stdout, end="", flush=True)
    if ran.returncode:
        sys.exit(f"all.py: status {ran.returncode}: {' '.join(words)}")


def side_by_side(jobs):
    """What each answers, in their order: most of them wait most of their time."""
    with concurrent.futures.ThreadPoolExecutor(AT_ONCE) as pool:
        return list(pool.map(lambda job: job(), jobs))


def is_there(library):
    return subprocess.run(["pkg-config", "--exists", library]).returncode == 0


def asked_of_curl(word):
    """And of libmicrohttpd, if it is there: without it --serve is refused."""
    serves = is_there("libmicrohttpd")
    found = subprocess.run(["pkg-config", word, "libcurl", *["libmicrohttpd"] * serves], check=True, capture_output=True, text=True).stdout.split()
    return [*found, *["-DBW_SERVES"] * (serves and word == "--cflags")]


def build(compiler, name, flags, sources):
    run(compiler, *WARNINGS, "-g", "-O1", *flags, f"-I{ROOT}/c", *asked_of_curl("--cflags"), *sources, ARCHIVE, *asked_of_curl("--libs"), "-o", OUT / name)
    return OUT / name


def sanitizes(flag):
    source, program = OUT / "empty.c", OUT / "empty"
    source.write_text("int main(void) { return 0; }\n")
    built = subprocess.run(["cc", flag, source, "-o", program], capture_output=True).returncode == 0
    return built and subprocess.run([program], capture_output=True).returncode == 0


def compile_old():
    """With the headers of libcurl 7.68, as far as those of today can show it: by its version alone."""
    include = OUT / "old"
    (include / "curl").mkdir(parents=True, exist_ok=True)
    for path in asked_of_curl("--cflags") + ["-I/usr/include", *(f"-I{it}" for it in pathlib.Path("/usr/include").glob("*-linux-gnu"))]:
        for it in pathlib.Path(path.removeprefix("-I"), "curl").glob("*.h"):
            (include / "curl" / it.name).write_text(re.sub(r"(?m)^#define LIBCURL_VERSION_NUM .*$", "#define LIBCURL_VERSION_NUM 0x074400", it.read_text()))
    for it in sorted((ROOT / "fetch").glob("*.c")):
        run("cc", *WARNINGS, "-Wno-deprecated-declarations", f"-I{include}", f"-I{ROOT}/c", "-c", it, "-o", OUT / "old.o")


def build_without_server():
    """Without libmicrohttpd all else is there, and --serve says what is lacking."""
    run("cc", *WARNINGS, f"-I{ROOT}/c", *(it for it in asked_of_curl("--cflags") if it != "-DBW_SERVES"), *sorted((ROOT / "fetch").glob("*.c")), ARCHIVE,
        *(it for it in asked_of_curl("--libs") if "microhttpd" not in it), "-o", OUT / "serves-not")
    ran = subprocess.run([OUT / "serves-not", "--serve", "0", "0" * 64, OUT / "none"], capture_output=True, text=True)
    if ran.returncode != 2 or "without libmicrohttpd" not in ran.stderr:
        sys.exit(f"all.py: --serve without libmicrohttpd: status {ran.returncode}: {ran.stderr}")


def no_wall_clock():
    """Nothing waits by a clock that may go back."""
    for it in sorted((ROOT / "fetch").glob("*.c")):
        if "CLOCK_REALTIME" in it.read_text() or "gettimeofday" in it.read_text():
            sys.exit(f"all.py: {it.name} asks a clock that may go back")


SEEDS = (
    b"\x10HTTP/1.1 206 P\r\nContent-Range: bytes 0-99/500\r\n\r\nabcdefgh",
    b"\xffHTTP/1.1 206 P\r\nContent-Type: multipart/byteranges; boundary=T\r\n\r\n--T\r\nContent-Range: bytes 5000-5009/9\r\n\r\n0123456789\r\n--T--\r\n",
    b"\x01HTTP/1.1 200 OK\r\nRetry-After: 12\r\nLocation: /x\r\n\r\nhello",
)


def fuzz():
    """The parser of answers, for a minute. Whether that is possible here."""
    program, corpus = OUT / "fuzz", OUT / "corpus"
    words = ["clang", "-std=c11", "-g", "-O1", "-fsanitize=fuzzer,address,undefined", f"-I{ROOT}/c", HERE / "fuzz.c", ROOT / "fetch" / "answer.c",
             *asked_of_curl("--cflags"), *asked_of_curl("--libs"), "-o", program]
    if not shutil.which("clang") or subprocess.run(words, capture_output=True).returncode:
        return False
    corpus.mkdir(exist_ok=True)
    for number, seed in enumerate(SEEDS):
        (corpus / str(number)).write_bytes(seed)
    run(program, "-max_total_time=60", "-max_len=20000", "-verbosity=0", corpus, stderr=subprocess.DEVNULL, cwd=OUT)
    return True


def build_example():
    """The example of docs/FETCH.md, which nothing calls."""
    example = OUT / "example.c"
    example.write_text((ROOT / "docs" / "FETCH.md").read_text().split("```c\n")[1].split("```")[0])
    run("cc", *WARNINGS, "-Wno-unused-function", f"-I{ROOT}/c", f"-I{ROOT}/fetch", "-c", example, "-o", OUT / "example.o")


def compare_manual(program):
    """The manual page has the options that the program prints, and no others; and its statuses."""
    printed = subprocess.run([program, "--help"], check=True, capture_output=True, text=True).stdout
    page = (ROOT / "fetch" / "bw-fetch.1").read_text().replace("\\-", "-")
    options = lambda text: set(re.findall(r"(?<![\w-])--?[a-z][a-z-]*", text))
    told = options("\n".join(line for line in page.split("\n") if line.startswith(".BR -")))
    if options(printed) != told:
        sys.exit(f"all.py: fetch/bw-fetch.1 and --help differ in {sorted(options(printed) ^ told)}")
    statuses = re.findall(r"(?m)^\.B (\d)$", page)
    if statuses != re.findall(r"\b(\d) [a-z]", printed.split("Statuses:")[1]):
        sys.exit(f"all.py: fetch/bw-fetch.1 has the statuses {statuses}")


def builds(has_clang, flags):
    """What is to be built, by name."""
    sources = sorted((ROOT / "fetch").glob("*.c"))
    return {
        "plain": ("cc", "plain", [], sources),
        "mkbao": ("cc", "mkbao", [], [HERE / "mkbao.c"]),
        "refuse": ("cc", "refuse", [WRAPPED], [*sources, HERE / "refuse.c"]),
        **({"clang": ("clang", "clang", [], sources)} if has_clang else {}),
        **({"asan": ("cc", "asan", [flags["asan"]], sources)} if "asan" in flags else {}),
        **({"tsan": ("cc", "tsan", [flags["tsan"], DELAYED], [*sources, HERE / "delays.c"])} if "tsan" in flags else {}),
    }


def main(drawn="4000"):
    OUT.mkdir(parents=True, exist_ok=True)
    has_clang, flags = shutil.which("clang"), {name: flag for name, flag in SANITIZERS.items() if sanitizes(flag)}
    missing = [*["clang"] * (not has_clang), *["libmicrohttpd"] * (not is_there("libmicrohttpd")), *(f"cc {flag}" for name, flag in SANITIZERS.items() if name not in flags)]
    wanted = builds(has_clang, flags)
    made = dict(zip(wanted, side_by_side([*(lambda row=row: build(*row) for row in wanted.values()), compile_old, build_without_server, build_example])))
    no_wall_clock()
    compare_manual(made["plain"])
    os.environ["BW_DELAYS"] = "1"                           # of tsan; of drawn.py each draw has its own
    test = lambda script, *words: lambda: run(sys.executable, HERE / script, *words)
    tested = {name: (made[name], made["mkbao"]) for name in ("tsan", "asan", "plain") if name in made}
    fuzzed, *_ = side_by_side([
        fuzz,
        *(test("hostile.py", *them, *(f"-{it}" for it in (*LARGE, "near ranges") if name != "plain")) for name, them in tested.items()),
        *(test("peers.py", *them) for them in tested.values()),
        *(test("options.py", *them) for them in tested.values()),
        test("drawn.py", "--refuse", made["refuse"], made["mkbao"]),
        *(test("drawn.py", *them, int(drawn) if name == "plain" else int(drawn) // 10 + 1) for name, them in tested.items()),
    ])
    for name in [*missing, *["clang -fsanitize=fuzzer"] * (not fuzzed)]:
        print(f"not run, since it isn't here: {name}")
    if (missing or not fuzzed) and os.environ.get("BERYLWOOL_CI"):
        sys.exit("all.py: nothing may be missing here")
    print("bw-fetch passed")


main(*sys.argv[1:])
