#!/usr/bin/env python3
"""Measures bw-fetch over mirrors of nginx on loopback: measure.py BW_FETCH [RUNS [MIB ..]].

At the top of the repository, after `make fetch`. Four mirrors of which two lie: one has a byte of each 64 KiB changed, the other of each 128 KiB. In turns with
curl of one true mirror, then a hash: by b3sum where it is installed, or else by `bao_gather hash` of out/; and with aria2c and a metalink of piece hashes, where
it is installed. Prints a row for each: wall and processor time (least and middle of the runs), the most memory, the bytes that came over the network for each
byte of the blob, and how many runs were right. Then what one liar costs beside a true
mirror and alone, as .bao and as a plain file; and how long a length takes where each answer comes 50 ms late.

With MIB it measures blobs of so many MiB in place of all that, each once in RUNS: from two true mirrors of nginx and two in Python that lie, which have the same
files. It takes 2.1 times the blob on the disk for these, and 1.1 times for OUT, and 1.1 times in memory to make them.
"""
import hashlib
import os
import pathlib
import random
import re
import resource
import shutil
import statistics
import subprocess
import sys
import tempfile
import threading
import time

HERE = pathlib.Path(__file__).resolve().parent
ROOT = HERE.parent.parent
sys.dont_write_bytecode = True
sys.path.insert(0, str(ROOT / "scripts"))
import mirrors
import peak

MIB = 1 << 20
SIZES = [64, 256]
LATE = 0.05

# What a liar costs beside one true mirror, or alone: a mode of mirrors.py.
LIARS = ["good", "noise", "flip", "some=1", "trunc", "never", "stall", "drip", "slow=60000", "headers", "dripheaders", "endless", "huge", "norange", "close", "e404"]
LIARS_SIZE = 8 * MIB

# Two that lie about a long blob: a byte of each 64 KiB, and a byte of each MiB.
LONG_LIARS = ["flip", "some=1"]


def encode(folder, blob):
    """Writes the parts as blob, with blob.bao and blob.obao, and answers the root."""
    tool = folder / "mkbao"
    subprocess.run(["cc", "-std=c11", "-O2", f"-I{ROOT}/c", HERE / "mkbao.c", ROOT / "out/libberylwool.a", "-o", tool], check=True)
    with open(folder / "blob", "wb") as file:
        file.writelines(blob)
    return subprocess.run([tool, folder / "blob"], check=True, capture_output=True, text=True).stdout.strip()


def parts_of_blob(size):
    part = random.Random(7).randbytes(min(size, 16 * MIB))
    return (part[8:] + at.to_bytes(8, "little") for at in range(size // len(part)))


def make_blob(size):
    return b"".join(parts_of_blob(size))


def lie(true, step):
    """One byte of each `step` is another one."""
    dice, body = random.Random(step), bytearray(true)
    for at in range(0, len(body) - step + 1, step):
        body[at + 70 + dice.randrange(step - 70)] ^= 1 + dice.randrange(255)
    return body


def make_mirrors(folder, blob):
    root = encode(folder, [blob])
    for name, step in (("m1", 0), ("m2", 1 << 16), ("m3", 0), ("m4", 1 << 17)):
        (folder / name).mkdir()
        for file in ("blob", "blob.bao", "blob.obao"):
            true = (folder / file).read_bytes()
            (folder / name / file).write_bytes(lie(true, step) if step else true)
    return root


def metalink(folder, blob, urls):
    pieces = "".join(f"<hash>{hashlib.sha256(blob[at:at + MIB]).hexdigest()}</hash>" for at in range(0, len(blob), MIB))
    places = "".join(f'<url priority="1">{it}</url>' for it in urls)
    (folder / "it.meta4").write_text(
        '<?xml version="1.0" encoding="UTF-8"?><metalink xmlns="urn:ietf:params:xml:ns:metalink"><file name="blob">'
        f'<size>{len(blob)}</size><hash type="sha-256">{hashlib.sha256(blob).hexdigest()}</hash><pieces length="{MIB}" type="sha-256">{pieces}</pieces>{places}'
        "</file></metalink>")


def free_ports(count):
    them = mirrors.Mirrors("/", ["good"] * count)
    them.end()
    return them.ports


class Nginx:
    """Four mirrors, in the foreground, ended by its own process."""

    def __init__(self, folder, address="127.0.0.1", enter=()):
        self.ports, self.address = free_ports(4), address
        servers = "".join(f"server {{ listen {address}:{port}; root {folder}/m{i}; }}\n" for i, port in enumerate(self.ports, 1))
        temps = " ".join(f"{it}_temp_path {folder}/tmp;" for it in ("client_body", "proxy", "fastcgi", "uwsgi", "scgi"))
        user = "user root;" if os.geteuid() == 0 else ""
        (folder / "nginx.conf").write_text(
            f"daemon off; {user} worker_processes 2; pid {folder}/nginx.pid; error_log {folder}/error.log;\nevents {{ worker_connections 256; }}\n"
            f"http {{ access_log off; {temps} sendfile on; keepalive_requests 100000;\n{servers}}}\n")
        self.process = subprocess.Popen([*enter, "nginx", "-p", folder, "-c", folder / "nginx.conf"], stderr=subprocess.DEVNULL)
        for _ in range(100):
            if subprocess.run(["curl", "-s", "-o", os.devnull, f"http://{address}:{self.ports[3]}/blob.obao"]).returncode == 0:
                return
            time.sleep(0.05)
        sys.exit("measure.py: nginx doesn't answer")

    def urls(self, name):
        return [f"http://{self.address}:{port}/{name}" for port in self.ports]

    def end(self):
        self.process.terminate()
        self.process.wait()


def hash_words():
    if shutil.which("b3sum"):
        return "b3sum", "b3sum out"
    tool = ROOT / "out/bao_gather"
    return ("bao_gather hash", f"{tool} hash out") if tool.exists() else ("", "")


def rows_of(fetch, root, nginx):
    """What is run, by its name, and where it puts the blob; None where it has to end with 1 and without one."""
    bao, plain = nginx.urls("blob.bao"), nginx.urls("blob")
    rows = {
        "bw-fetch, 4 .bao, 2 lie": ([fetch, "-v", root, "out", *bao], "out"),
        "bw-fetch, 4 plain, 2 lie": ([fetch, "-v", root, "out", *plain], "out"),
        "bw-fetch, 2 .bao, both lie": ([fetch, "-v", root, "out", bao[1], bao[3]], None),
        "bw-fetch, 2 plain, both lie": ([fetch, "-v", root, "out", plain[1], plain[3]], None),
        "bw-fetch, 1 true .bao": ([fetch, "-v", root, "out", bao[0]], "out"),
        "bw-fetch, 1 true plain": ([fetch, "-v", root, "out", plain[0]], "out"),
        "curl, 1 true": (["curl", "-s", "-o", "out", plain[0]], "out"),
    }
    name, words = hash_words()
    if name:
        both = f"curl -s -o out {plain[0]} && {words} > {os.devnull}"
        rows[f"curl, 1 true, then {name}"] = (["sh", "-c", both], "out")
        rows[f"curl, 1 true, then {name}, then sync"] = (["sh", "-c", f"{both} && sync out"], "out")
    if shutil.which("aria2c"):
        rows["aria2c, metalink, 4 plain, 2 lie"] = (
            ["aria2c", "-q", "--follow-metalink=false", "-s", "4", "-x", "4", "-k", "1M", "--file-allocation=none", "--allow-overwrite=true", "-M", "it.meta4", "-d", ".",
             "-o", "blob"], "blob")
    return rows


def processor():
    """Seconds of processor time that the children took which have ended."""
    it = resource.getrusage(resource.RUSAGE_CHILDREN)
    return it.ru_utime + it.ru_stime


def run_once(launcher, words, out, folder, work, status=1):
    """(wall, processor, MiB, bytes that came, whether it was right)"""
    for it in work.glob("*"):
        if it.name != "it.meta4":
            it.unlink()
    before = processor()
    ran = launcher.run([shutil.which(words[0]), *(str(it) for it in words[1:])], cwd=work)
    used = processor() - before
    if out:
        right = ran.status == 0 and subprocess.run(["cmp", "-s", folder / "m1/blob", work / out]).returncode == 0
    else:
        right = ran.status == status and not (work / "out").exists()
    came = sum(int(it) for it in re.findall(r": (\d+) bytes, ", ran.complaint.decode(errors="replace")))
    return ran.seconds, used, ran.peak / MIB, came, right


def measure(fetch, size, runs):
    with tempfile.TemporaryDirectory() as folder:
        folder = pathlib.Path(folder)
        folder.chmod(0o755)
        blob, work = make_blob(size * MIB), folder / "work"
        root = make_mirrors(folder, blob)
        work.mkdir()
        nginx, launcher = Nginx(folder), peak.Launcher(folder)
        try:
            metalink(work, blob, nginx.urls("blob"))
            rows = rows_of(fetch, root, nginx)
            got = {name: [] for name in rows}
            for _ in range(runs):
                for name, (words, out) in rows.items():
                    got[name].append(run_once(launcher, words, out, folder, work))
        finally:
            nginx.end()
    print(f"{size} MiB, {runs} runs in turns, load {os.getloadavg()[0]:.1f}")
    print("| what | wall, least | wall, middle | processor, middle | memory, most | bytes that came | right |\n|---|---|---|---|---|---|---|")
    for name, them in got.items():
        wall, used, memory, came, right = zip(*them)
        share = f"{max(came) / len(blob):.3f}" if max(came) else ""
        print(f"| {name} | {min(wall):.2f} s | {statistics.median(wall):.2f} s | {statistics.median(used):.2f} s | {max(memory):.1f} MiB | {share} | {sum(right)} of {runs} |")


def measure_liars(fetch):
    """One mirror that lies, in either form, beside a true one, and alone with a stall time of one second."""
    print(f"{LIARS_SIZE // MIB} MiB, one liar, servers in Python")
    print("| the liar's mode | beside a true one | bytes that came | alone | bytes that came | memory, most |\n|---|---|---|---|---|---|")
    for mode in LIARS:
        row, most = [], 0
        for modes, words in (([mode, "good"], []), ([mode], ["--stall", "1"])):
            took, share = [], []
            for file in ("blob.bao", "blob"):
                wall, came, peak_mib = fetch_once(fetch, modes, file, words)
                took.append(wall)
                share.append(came / LIARS_SIZE)
                most = max(most, peak_mib)
            row += [f"{took[0]:.1f} and {took[1]:.1f} s", f"{share[0]:.2f} and {share[1]:.2f}"]
        print(f"| {mode} | {' | '.join(row)} | {most:.0f} MiB |", flush=True)


def measure_long(fetch, size, runs):
    with tempfile.TemporaryDirectory(dir=ROOT / "out") as folder:
        folder = pathlib.Path(folder)
        folder.chmod(0o755)
        root, work = encode(folder, parts_of_blob(size * MIB)), folder / "work"
        work.mkdir()
        for name in ("m1", "m2", "m3", "m4"):
            (folder / name).symlink_to(folder)
        nginx, liars, launcher = Nginx(folder), mirrors.Mirrors(folder, LONG_LIARS), peak.Launcher(folder)
        urls = {file: [*nginx.urls(file)[:2], *(f"http://127.0.0.1:{port}/{file}" for port in liars.ports)] for file in ("blob.bao", "blob")}
        piped = ["sh", "-c", f"exec {fetch} -v {root} - {urls['blob.bao'][0]} > {os.devnull}"]
        rows = {
            "4 .bao, 2 lie": ([fetch, "-v", root, "out", *urls["blob.bao"]], "out"),
            "4 plain, 2 lie": ([fetch, "-v", root, "out", *urls["blob"]], "out"),
            "1 true .bao": ([fetch, "-v", root, "out", urls["blob.bao"][0]], "out"),
            "1 true plain": ([fetch, "-v", root, "out", urls["blob"][0]], "out"),
            "1 true .bao, to a pipe": (piped, None),
            "1 .bao with a false byte of each MiB: status 1": ([fetch, "-v", root, "out", urls["blob.bao"][3]], None),
            "the same, and then 1 true .bao": (["sh", "-c", f"{fetch} -v {root} out {urls['blob.bao'][3]}; {fetch} -v {root} out {urls['blob.bao'][0]}"], "out"),
            "curl, 1 true, then b3sum": (["sh", "-c", f"curl -s -o out {urls['blob'][0]} && b3sum out > {os.devnull}"], "out"),
        }
        print(f"{size} MiB, {runs} runs in turns, load {os.getloadavg()[0]:.1f}")
        print("| what | wall, least | processor, least | memory, most | bytes that came | right |\n|---|---|---|---|---|---|")
        try:
            for name, (words, out) in rows.items():
                wall, used, memory, came, right = zip(*(run_once(launcher, words, out, folder, work, status="status 1" in name) for _ in range(runs)))
                print(f"| {name} | {min(wall):.1f} s | {min(used):.1f} s | {max(memory):.1f} MiB | {max(came) / size / MIB:.4f} | {sum(right)} of {runs} |", flush=True)
        finally:
            liars.end()
            nginx.end()


def fetch_once(fetch, modes, file, words):
    with tempfile.TemporaryDirectory() as folder:
        folder = pathlib.Path(folder)
        root, launcher = encode(folder, [make_blob(LIARS_SIZE)]), peak.Launcher(folder)
        them = mirrors.Mirrors(folder, modes)
        ran = launcher.run([str(fetch), "-v", *words, root, str(folder / "out"), *(f"http://127.0.0.1:{it}/{file}" for it in them.ports)])
        them.end()
    came = sum(int(it) for it in re.findall(r": (\d+) bytes, ", ran.complaint.decode(errors="replace")))
    return ran.seconds, came, ran.peak / MIB


def measure_late(fetch):
    """A .bao of 3 KiB and one of 64 MiB, from a server that waits before each answer."""
    for size in (3072, 64 * MIB):
        with tempfile.TemporaryDirectory() as folder:
            folder = pathlib.Path(folder)
            root = encode(folder, [make_blob(size)])
            for modes, what in ((["late=0"], "at once"), ([f"late={LATE}"], "50 ms late")):
                them = Counted(folder, modes)
                began = time.monotonic()
                subprocess.run([fetch, "-c", "1", "--max", str(size), root, folder / "out", f"http://127.0.0.1:{them.ports[0]}/blob.bao"], check=True, capture_output=True)
                took = time.monotonic() - began
                print(f"{size} bytes, one connection, answers {what}: {took:.2f} s, {them.before_data} requests before the first for a unit, {them.requests} in all")
                them.end()


class Counting(mirrors.Mirror):
    def answer(self):
        counts = self.server.counts
        with counts.lock:
            counts.requests += 1
            several = self.headers.get("Range", "")
            asked = mirrors.ranges_of(several, 1 << 62)
            counts.before_data += counts.requests == counts.before_data + 1 and sum(end - start for start, end in asked) < 1 << 16
        super().answer()


class Counted(mirrors.Mirrors):
    """Mirrors that count requests: those before the first for data, and all."""

    def __init__(self, folder, modes):
        self.requests = self.before_data = 0
        self.lock = threading.Lock()
        super().__init__(folder, modes, Counting)
        for it in self.servers:
            it.counts = self


def main(fetch, runs="5", *sizes):
    if not shutil.which("nginx") or not shutil.which("curl"):
        sys.exit("measure.py: needs nginx and curl")
    fetch = pathlib.Path(fetch).resolve()
    for size in sizes:
        measure_long(fetch, int(size), int(runs))
    if sizes:
        return
    for size in SIZES:
        measure(fetch, size, int(runs))
    measure_liars(fetch)
    measure_late(fetch)
    for name in ("b3sum", "aria2c"):
        if not shutil.which(name):
            print(f"not measured, since it isn't here: {name}")


if __name__ == "__main__":
    main(*sys.argv[1:])
