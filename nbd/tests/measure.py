#!/usr/bin/env python3
"""Measures the nbdkit plugin beside that for curl, over one nginx on loopback: measure.py [RUNS [MIB]].

At the top of the repository, after `make nbd`. Needs nginx, nbdcopy and nbdkit's plugin for curl. In turns: a copy of the blob by nbdcopy to null:, with the
processor time of nbdcopy and nbdkit and the most memory of nbdkit; and reads of 4 KiB at places that are drawn, at one connection and at eight. A cold read is
the first of its 64 KiB; a warm one is of what was copied before. Of the runs, 3 if left out, the least time counts. The last column is the ratio to the plugin
for curl, which verifies nothing, cold; warm, that has nbdkit's cache filter over it.
"""
import multiprocessing
import os
import pathlib
import random
import resource
import shutil
import subprocess
import sys
import tempfile
import time

import kit

MIB, GROUP = 1 << 20, 1 << 16
COLD, WARM = 200, 4000                      # reads of each connection
CONFIG = """daemon off; worker_processes 2; pid {folder}/pid; error_log {folder}/errors;
events {{ worker_connections 256; }}
http {{ access_log off; sendfile on; tcp_nodelay on; keepalive_requests 1000000; client_body_temp_path {folder}/b; proxy_temp_path {folder}/p;
  fastcgi_temp_path {folder}/f; uwsgi_temp_path {folder}/u; scgi_temp_path {folder}/s; server {{ listen 127.0.0.1:{port}; root {folder}; }} }}
"""


class Nginx:
    def __init__(self, folder):
        with kit.socket.socket() as any_port:
            any_port.bind(("127.0.0.1", 0))
            self.port = any_port.getsockname()[1]
        pathlib.Path(folder, "config").write_text(("user root; " if os.geteuid() == 0 else "") + CONFIG.format(folder=folder, port=self.port))
        self.process = subprocess.Popen(["nginx", "-c", f"{folder}/config", "-p", folder, "-e", f"{folder}/errors"])
        for _ in range(100):
            with kit.socket.socket() as tried:
                if not tried.connect_ex(("127.0.0.1", self.port)):
                    return
            time.sleep(0.05)


class Nbdkit:
    """nbdkit over these words, which ends with the block."""

    def __init__(self, folder, words):
        self.path = f"{folder}/socket"
        self.process = subprocess.Popen(["nbdkit", "-f", "-U", self.path, "-P", f"{folder}/ready", *words], stderr=subprocess.DEVNULL)
        while not os.path.exists(f"{folder}/ready"):
            time.sleep(0.01)
        self.folder = folder

    def __enter__(self):
        return self

    def __exit__(self, *_):
        self.process.terminate()
        self.process.wait()
        for name in ("socket", "ready"):
            pathlib.Path(self.folder, name).unlink(missing_ok=True)

    def peak(self):
        with open(f"/proc/{self.process.pid}/status") as told:
            return next(int(it.split()[1]) >> 10 for it in told if it.startswith("VmHWM"))

    def copy(self):
        subprocess.run(["nbdcopy", f"nbd+unix:///?socket={self.path}", "null:"], check=True)

    def reads(self, connections, count, size):
        """Reads a second, by a process for each connection: each of other 64 KiB, as far as there are so many."""
        groups = list(range(size // GROUP))
        random.Random(1).shuffle(groups)
        begin = multiprocessing.Barrier(connections + 1)

        def run(number):
            client = kit.Client(self.path)
            begin.wait()
            for it in range(number * count, (number + 1) * count):
                client.read(groups[it % len(groups)] * GROUP + it % 16 * 4096, 4096)
            client.close()

        readers = [multiprocessing.Process(target=run, args=(it,)) for it in range(connections)]
        for it in readers:
            it.start()
        begin.wait()
        began = time.monotonic()
        for it in readers:
            it.join()
        return connections * count / (time.monotonic() - began)


def processor():
    return sum(resource.getrusage(resource.RUSAGE_CHILDREN)[:2])


def copies(folder, ways, runs):
    found = {name: [] for name in ways}
    for _ in range(runs):
        for name, words in ways.items():
            before, began = processor(), time.monotonic()
            with Nbdkit(folder, words) as it:
                it.copy()
                took, peak = time.monotonic() - began, it.peak()
            found[name].append((took, processor() - before, peak))
    return {name: tuple(min(it) for it in zip(*rows)) for name, rows in found.items()}


def rates(folder, ways, runs, size, connections, is_warm):
    found = {name: [] for name in ways}
    for _ in range(runs):
        for name, words in ways.items():
            with Nbdkit(folder, words) as it:
                if is_warm:
                    it.copy()
                found[name].append(it.reads(connections, WARM // connections if is_warm else COLD, size))
    return {name: max(rows) for name, rows in found.items()}


def main(runs="3", mib="256"):
    for tool in ("nginx", "nbdcopy"):
        if not shutil.which(tool):
            sys.exit(f"measure.py: {tool} is not installed")
    runs, size = int(runs), int(mib) * MIB
    with tempfile.TemporaryDirectory() as folder:
        os.chmod(folder, 0o755)
        part = random.Random(7).randbytes(16 * MIB)
        with open(f"{folder}/blob", "wb") as file:
            file.writelines(part[8:] + at.to_bytes(8, "little") for at in range(size // len(part)))
        kit.build_mkbao(folder)
        root = subprocess.run([f"{folder}/mkbao", f"{folder}/blob"], check=True, capture_output=True, text=True).stdout.strip()
        server = Nginx(folder)
        url = f"http://127.0.0.1:{server.port}/blob"
        bao, plain = [kit.PLUGIN, f"root={root}", f"{url}.bao"], [kit.PLUGIN, f"root={root}", url, f"outboard={url}.obao"]
        curl = ["curl", url]
        try:
            print(f"load {os.getloadavg()[0]:.0f}; copy of {mib} MiB: seconds, of the processor, MiB of nbdkit; ratios to curl")
            rows = copies(folder, {"curl": curl, ".bao": bao, "plain": plain, ".bao cache=16M": [*bao, "cache=16M"]}, runs)
            for name, (took, used, peak) in rows.items():
                print(f"{name:16} {took:6.2f} {used:6.2f} {peak:5}   {took / rows['curl'][0]:.2f} {used / rows['curl'][1]:.2f}", flush=True)
            cold = {"curl": curl, ".bao": bao, "plain": plain}
            warm = {"curl": ["--filter=cache", *curl, "cache-on-read=true"], ".bao": [*bao, "cache=1G"], "plain": [*plain, "cache=1G"]}
            for is_warm, ways in ((False, cold), (True, warm)):
                for connections in (1, 8):
                    rows = rates(folder, ways, runs, size, connections, is_warm)
                    for name, rate in rows.items():
                        print(f"{'warm' if is_warm else 'cold'} reads a second at {connections}: {name:8} {rate:8.0f}   {rate / rows['curl']:.2f}", flush=True)
        finally:
            server.process.terminate()
            server.process.wait()


main(*sys.argv[1:])
