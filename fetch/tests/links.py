#!/usr/bin/env python3
"""Measures bw-fetch beside curl, b3sum and aria2c, on loopback and over links of 100 and 10 Mbit/s with 30 ms there and back.

    links.py BW_FETCH [RUNS [MIB]]

At the top of the repository, after `make fetch`; needs nginx, curl and b3sum, and for links tc, nsenter and leave to make network namespaces. Without these the
links are left out, with a line that says so. A kernel without netem has the packets carried by a process of this program, between two devices. A blob of MIB MiB, 256 if left out and an eighth of that at 10 Mbit/s, comes from one true mirror, and from four of which
two lie; and 200 packages of 20 KB to 5 MB come by a manifest, on links an eighth as many. All mirrors share a link. The programs take turns; of RUNS each row has the
least times, and their ratio to the row of curl and b3sum, or of aria2c, above it. Last is the most memory beside the 32 MiB and 10 bytes for each 64 KiB that
are wanted at most.
"""
import collections
import fcntl
import os
import pathlib
import random
import shutil
import struct
import subprocess
import sys
import tempfile
import threading
import time

HERE = pathlib.Path(__file__).resolve().parent
sys.dont_write_bytecode = True
sys.path.insert(0, str(HERE.parent.parent / "scripts"))
import measure
import peak

MIB = 1 << 20
PACKAGES, SHORTEST, LONGEST = 200, 20_000, 5_000_000
NETWORK = "10.77.0"
LINKS = [("loopback", None, 1), ("100 Mbit/s, 30 ms", 100, 1), ("10 Mbit/s, 30 ms", 10, 8)]
DELAY, LONGEST_QUEUE = 0.015, 1.0       # seconds


def isolate():
    """Begins anew in a network of its own. Whether that is allowed."""
    if not os.environ.get("BW_FETCH_LINKS"):
        allowed = all(map(shutil.which, ("unshare", "nsenter", "ip", "tc"))) and subprocess.run(["unshare", "-n", "true"], capture_output=True).returncode == 0
        os.environ["BW_FETCH_LINKS"] = "1" if allowed else "0"
        if allowed:
            os.execvp("unshare", ["unshare", "-n", sys.executable, *sys.argv])
    if os.environ["BW_FETCH_LINKS"] == "1":
        subprocess.run(["ip", "link", "set", "lo", "up"], check=True)
    return os.environ["BW_FETCH_LINKS"] == "1"


def has_netem():
    """Whether the kernel holds packets back itself."""
    words = ["tc", "qdisc", "replace", "dev", "lo", "root", "netem"]
    there = subprocess.run(words, capture_output=True).returncode == 0
    subprocess.run(["tc", "qdisc", "del", "dev", "lo", "root"], capture_output=True)
    return there


def make_tun(name):
    """A device whose packets are read and written here."""
    device = os.open("/dev/net/tun", os.O_RDWR)
    fcntl.ioctl(device, 0x400454CA, struct.pack("16sH14x", name.encode(), 0x1001))          # TUNSETIFF: IFF_TUN, IFF_NO_PI
    return device


def carry(source, target, rate):
    """Carries packets from one device to another, so many megabits a second and each after a delay. What would queue for too long is lost."""
    under_way, something, free = collections.deque(), threading.Semaphore(0), 0

    def deliver():
        while True:
            something.acquire()
            when, packet = under_way.popleft()
            time.sleep(max(0, when - time.monotonic()))
            os.write(target, packet)

    threading.Thread(target=deliver, daemon=True).start()
    while True:
        packet, now = os.read(source, 65536), time.monotonic()
        if free < now + LONGEST_QUEUE:
            free = max(free, now) + len(packet) * 8 / (rate * 1e6)
            under_way.append((free + DELAY, packet))
            something.release()


def carry_both(rate):
    """In a process of its own: makes two devices, says so, and carries until it is ended."""
    here, there = make_tun("here"), make_tun("there")
    print("made", flush=True)
    sys.stdin.read(1)
    for source, target in ((here, there), (there, here)):
        threading.Thread(target=carry, args=(source, target, rate), daemon=True).start()
    sys.stdin.read()


class Link:
    """Another network, which a link of some rate leads to; without a rate it is this one."""

    def __init__(self, rate):
        self.rate, self.address, self.enter, self.holder, self.carrier = rate, "127.0.0.1", [], None, None
        if not rate:
            return
        self.holder, self.address = subprocess.Popen(["unshare", "-n", "sleep", "3600"]), f"{NETWORK}.2"
        own = os.readlink("/proc/self/ns/net")
        while os.readlink(f"/proc/{self.holder.pid}/ns/net") == own:        # until it has a network of its own
            pass
        self.enter = ["nsenter", "-t", str(self.holder.pid), "-n"]
        run = lambda *words: subprocess.run([str(it) for it in words], check=True)
        by_kernel = has_netem()
        if by_kernel:
            run("ip", "link", "add", "here", "type", "veth", "peer", "name", "there", "netns", self.holder.pid)
        else:
            self.carrier = subprocess.Popen([sys.executable, __file__, "--carry", str(rate)], stdin=subprocess.PIPE, stdout=subprocess.PIPE, text=True)
            self.carrier.stdout.readline()
            run("ip", "link", "set", "there", "netns", self.holder.pid)
        for enter, name, number in (([], "here", 1), (self.enter, "there", 2)):
            run(*enter, "ip", "address", "add", f"{NETWORK}.{number}/24", "dev", name)
            run(*enter, "ip", "link", "set", name, "up", *([] if by_kernel else ["mtu", "9000"]))
            if by_kernel:
                run(*enter, "tc", "qdisc", "add", "dev", name, "root", "netem", "rate", f"{rate}mbit", "delay", f"{DELAY}s", "limit", "10000")
        if not by_kernel:
            self.carrier.stdin.write("-")
            self.carrier.stdin.flush()

    def end(self):
        if self.carrier:
            self.carrier.kill()
            self.carrier.wait()
        if self.holder:
            self.holder.kill()
            self.holder.wait()


def make_packages(folder, count):
    """Packages in folder/m1, of lengths spread evenly over their logarithms, and the list of each program. What they have is never the same."""
    dice, roots = random.Random(5), []
    for i in range(count):
        blob = dice.randbytes(int(SHORTEST * (LONGEST / SHORTEST) ** (i / max(1, count - 1))))
        name = folder / "m1" / f"p{i}"
        name.write_bytes(blob)
        roots.append(subprocess.run([folder / "mkbao", name], check=True, capture_output=True, text=True).stdout.strip())
    return roots


def rows_of(fetch, root, roots, urls, work):
    """(what it is, words, the row that it is measured by, what it has to leave)"""
    one, packages = urls("blob")[0], [urls(f"p{i}")[0] for i in range(len(roots))]
    (work / "manifest").write_text("".join(f"{it} p{i} {url}.bao\n" for i, (it, url) in enumerate(zip(roots, packages))))
    (work / "list").write_text("".join(f"{it}\n" for it in packages))
    fetch = [fetch, "-q", "--patience", "60"]
    both = f"curl -s -o out {one} && b3sum out > {os.devnull}"
    rows = [
        ("curl, then b3sum", ["sh", "-c", both], None, "out"),
        ("bw-fetch, 1 true .bao", [*fetch, root, "out", f"{one}.bao"], "curl, then b3sum", "out"),
        ("bw-fetch, 1 true plain", [*fetch, root, "out", one], "curl, then b3sum", "out"),
        ("bw-fetch, 4 .bao, 2 lie", [*fetch, root, "out", *urls("blob.bao")], "curl, then b3sum", "out"),
        ("bw-fetch, 4 plain, 2 lie", [*fetch, root, "out", *urls("blob")], "curl, then b3sum", "out"),
    ]
    of = None
    if shutil.which("aria2c"):
        of = f"aria2c -j 8, {len(roots)} packages"
        rows.append((of, ["aria2c", "-q", "-i", "list", "-j", "8", "--file-allocation=none", "--allow-overwrite=true"], None, "packages"))
    return [*rows, (f"bw-fetch, {len(roots)} packages", [*fetch, "--manifest", "manifest"], of, "packages")]


def run_row(launcher, words, leaves, folder, work, count):
    names = ["out"] if leaves == "out" else [f"p{i}" for i in range(count)]
    for it in names:
        (work / it).unlink(missing_ok=True)
    before = measure.processor()
    ran = launcher.run([shutil.which(words[0]), *(str(it) for it in words[1:])], cwd=work)
    used = measure.processor() - before
    true = lambda it: folder / "m1" / ("blob" if leaves == "out" else it)
    right = ran.status == 0 and all(subprocess.run(["cmp", "-s", true(it), work / it]).returncode == 0 for it in names)
    return ran.seconds, used, ran.peak, right


def measure_link(fetch, name, rate, size, count, runs):
    with tempfile.TemporaryDirectory(dir=measure.ROOT / "out") as folder:
        folder = pathlib.Path(folder)
        folder.chmod(0o755)
        work = folder / "work"
        work.mkdir()
        root = measure.make_mirrors(folder, measure.make_blob(size))
        roots = make_packages(folder, count)
        link = Link(rate)
        nginx, launcher = measure.Nginx(folder, link.address, link.enter), peak.Launcher(folder)
        try:
            rows = rows_of(fetch, root, roots, nginx.urls, work)
            got = {it: [] for it, *_ in rows}
            for _ in range(runs):
                for it, words, _, leaves in rows:
                    got[it].append(run_row(launcher, words, leaves, folder, work, count))
        finally:
            nginx.end()
            link.end()
    print(f"{name}: {size / MIB:g} MiB, {runs} runs in turns, {os.cpu_count()} processors, load {os.getloadavg()[0]:.1f}")
    print("| what | wall | ratio | processor | ratio | memory | right |\n|---|---|---|---|---|---|---|")
    least = {it: [min(column) for column in list(zip(*them))[:2]] for it, them in got.items()}
    for it, _, by, leaves in rows:
        wall, used = least[it]
        ratios = [f"{mine / max(other, 1e-3):.2f}" for mine, other in zip(least[it], least[by])] if by else ["", ""]
        most = max(one[2] for one in got[it]) / MIB
        print(f"| {it} | {wall:.2f} s | {ratios[0]} | {used:.2f} s | {ratios[1]} | {most:.1f} MiB | {sum(one[3] for one in got[it])} of {runs} |", flush=True)
    most = max(one[2] for it, words, _, leaves in rows if words[0] == fetch and leaves == "out" for one in got[it])
    print(f"most memory of bw-fetch for the blob: {most / MIB:.1f} MiB, wanted at most {32 + 10 * (size // 65536) / MIB:.1f} MiB")


def main(fetch, runs="3", mib="256"):
    missing = [it for it in ("nginx", "curl", "b3sum") if not shutil.which(it)]
    if missing:
        sys.exit(f"links.py: needs {' and '.join(missing)}")
    has_links, fetch = isolate(), pathlib.Path(fetch).resolve()
    for name, rate, share in LINKS:
        if rate and not has_links:
            print(f"links.py: not measured, since no network of its own is allowed here: {name}")
        else:
            measure_link(fetch, name, rate, int(float(mib) * MIB) // share, max(1, PACKAGES // (8 if rate else 1)), int(runs))


if __name__ == "__main__":
    if sys.argv[1:2] == ["--carry"]:
        carry_both(float(sys.argv[2]))
    else:
        main(*sys.argv[1:]) if len(sys.argv) > 1 else sys.exit(__doc__)
