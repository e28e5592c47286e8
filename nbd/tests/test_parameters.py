"""Parameters that the plugin refuses, each by its name; its help, and its manual page."""
import pathlib
import re
import subprocess

from kit import HELD, PLUGIN, ROOT, Blob, Kit, Served, cases, run

HEX, BAO, PLAIN = "0" * 64, "url=http://127.0.0.1:1/x.bao", "url=http://127.0.0.1:1/x"
OUTBOARD = "outboard=http://127.0.0.1:1/x.obao"
# The words, and what nbdkit prints of them.
REFUSED = [
    ([BAO], "root: the blob's hash is needed"),
    ([f"root={HEX}"], "url: a mirror is needed"),
    ([f"root={HEX[1:]}", BAO], "root: a root has 64 hexadecimal digits"),
    ([f"root={HEX[1:]}g", BAO], "root: a root has 64 hexadecimal digits"),
    ([f"root={HEX}0", BAO], "root: a root has 64 hexadecimal digits"),
    ([f"root={HEX}", PLAIN], "outboard: needed beside a plain file, which is each url that has no .bao"),
    ([f"root={HEX}", "url=ftp://127.0.0.1/x.bao"], "url: an address begins with http:// or https://"),
    ([f"root={HEX}", "/etc/passwd"], "url: an address begins with http:// or https://"),
    ([f"root={HEX}", PLAIN, "outboard=file:///x"], "outboard: an address begins with http:// or https://"),
    ([f"root={HEX}", *[BAO] * 33], "url: there are more than 32"),
    ([f"root={HEX}", *[PLAIN] * 9, *[OUTBOARD] * 8], "outboard: more than 64 pairs of a plain file and an outboard encoding"),
    ([f"root={HEX}", BAO, "mirrors=/there/is/none"], "/there/is/none: No such file or directory"),
    ([f"root={HEX}", BAO, "mirrors=/"], "/: Is a directory"),
    ([f"root={HEX}", BAO, "key-file=/there/is/none"], "/there/is/none: No such file or directory"),
    ([f"root={HEX}", BAO, "key-file=/dev/null"], "a key file has 64 hexadecimal digits"),
    ([f"root={HEX}", BAO, "key-file=/dev/null", "context=x"], "a key file or a context, and not both"),
    ([f"root={HEX}", BAO, b"context=\xff"], "a context is a UTF-8 text"),
    ([f"root={HEX}", BAO, "cache=much"], "cache: a size is a number, perhaps with K, M or G"),
    ([f"root={HEX}", BAO, "readahead=-1"], "readahead: a size is a number, perhaps with K, M or G"),
    ([f"root={HEX}", BAO, "connections=0"], "connections: 1 to 16 for each mirror"),
    ([f"root={HEX}", BAO, "connections=17"], "connections: 1 to 16 for each mirror"),
    ([f"root={HEX}", BAO, "connections=x"], "connections: "),
    ([f"root={HEX}", BAO, "patience=0"], "patience: 0.1 to 3600 seconds"),
    ([f"root={HEX}", BAO, "patience=nan"], "patience: 0.1 to 3600 seconds"),
    ([f"root={HEX}", BAO, "patience=5s"], "patience: 0.1 to 3600 seconds"),
    ([f"root={HEX}", BAO, "patients=5"], "patients: there is no such parameter"),
]
NAMES = "root url outboard mirrors key-file context cache readahead connections patience".split()


class Parameters(cases.Case):
    def tried(self, words, wanted):
        ran = subprocess.run(["nbdkit", "-U", "-", PLUGIN, *words, "--run", "true"], capture_output=True, text=True, timeout=HELD, stdin=subprocess.DEVNULL)
        self.holds(ran.returncode != 0 and wanted in ran.stderr, f"status {ran.returncode}: {ran.stderr}")

    def test_help(self):
        told = run("nbdkit", PLUGIN, "--help").stdout
        found = re.findall(r"(?m)^([a-z-]+)=[A-Z]+ ", told)
        self.holds(found == NAMES, f"--help names {found}")

    def test_manual(self):
        """The page has each parameter, with the number that it has where it's left out."""
        page = (ROOT / "nbd" / "nbdkit-berylwool-plugin.1").read_text().replace("\\-", "-")
        found = re.findall(r"(?m)^\.BR? ([a-z-]+)= ", page)
        self.holds(found == NAMES, f"the page names {found}")
        told = run("nbdkit", PLUGIN, "--help").stdout
        for name, number in re.findall(r"(?ms)^([a-z-]+)=(?:(?!^[a-z]).)*?\(([0-9]+[KMG]?)\)$", told):
            self.holds(re.search(rf"(?s)\.BR? {name}= .*?\({number}\)", page), f"the page doesn't say that {name} is {number}")

    def test_dump_plugin(self):
        told = run("nbdkit", PLUGIN, "--dump-plugin").stdout
        version = int(re.search(r"#define BW_VERSION (\d+)", (ROOT / "c/berylwool.h").read_text())[1])
        name = f"{version // 10000}.{version // 100 % 100}.{version % 100}"
        for line in ("name=berylwool", f"version={name}", f"berylwool_library={name}", "max_thread_model=parallel"):
            self.holds(line in told.splitlines(), f"no {line}")

    def test_read_only(self):
        """The export is read-only, may have many connections, and has block sizes and a cache."""
        cases.need("nbdinfo")
        blob = Blob(65_537)
        told = run("nbdinfo", Kit(self, *Served(self, blob, "good").words, root=blob.root).uri).stdout
        for line in ("is_read_only: true", "can_multi_conn: true", "can_cache: true", "block_size_preferred: 65536"):
            self.holds(line in told, f"no {line}")

    def test_bare_address(self):
        """An address needs no url= before it."""
        blob, file = Blob(65_537), pathlib.Path(self.folder(), "mirrors")
        bare = [it.removeprefix("url=") for it in Served(self, blob, "good").words]
        file.write_text("")
        client = Kit(self, f"mirrors={file}", *bare, root=blob.root).client()
        self.holds(client.read(0, 65_537) == blob.bytes, "other bytes")
        client.close()


cases.each((f"{wanted}, {number}", words, wanted) for number, (words, wanted) in enumerate(REFUSED))(Parameters)
