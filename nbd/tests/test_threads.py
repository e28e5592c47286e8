"""What reads and fetches, without nbdkit: under sanitizers, with delays at its locks, and with memory that is refused."""
import functools
import os
import subprocess

from kit import ARCHIVE, LONG, ROOT, Blob, Served, cases, run

WRAPPED = "-Wl,--wrap=malloc,--wrap=calloc,--wrap=realloc"
DELAYED = "-Wl,--wrap=pthread_mutex_lock,--wrap=pthread_mutex_unlock,--wrap=pthread_cond_wait,--wrap=pthread_cond_signal"
BUILDS = {
    "plain": ["-O1"],
    "asan": ["-O1", "-fsanitize=address,undefined"],
    "tsan": ["-O1", "-fsanitize=thread", DELAYED, f"{ROOT}/fetch/tests/delays.c"],
}
MIB = 1 << 20
# modes of mirrors, their form, threads, reads, cache, bytes read ahead, connections, patience
CASES = [
    ("flip some=7 good", "bao", 8, 60, 8 * MIB, MIB, 3, 30),
    ("flip some=7 good", "plain", 8, 60, 8 * MIB, MIB, 3, 30),
    ("good", "bao", 16, 30, 1, 0, 2, 30),
    ("good", "plain", 16, 30, 32 * MIB, 4 * MIB, 1, 30),
    ("never good", "bao", 4, 20, 8 * MIB, 2 * MIB, 2, 5),
    ("eighth trunc e404 close", "bao", 4, 30, 8 * MIB, 2 * MIB, 2, 5),
]


def build(folder, name):
    sources = [ROOT / "nbd" / f"{it}.c" for it in ("exchange", "gather", "known", "store")]
    sources += [ROOT / "fetch" / f"{it}.c" for it in ("answer", "file", "http", "pool", "tree", "url")]
    libcurl = subprocess.run(["pkg-config", "--cflags", "--libs", "libcurl"], check=True, capture_output=True, text=True).stdout.split()
    flags = ["-std=c11", "-g", "-Wall", "-Wextra", "-Wshadow", "-Werror", "-pthread", WRAPPED, f"-I{ROOT}/c", *BUILDS[name]]
    ran = run("cc", *flags, ROOT / "nbd/tests/harness.c", *sources, ARCHIVE, *libcurl, "-o", f"{folder}/harness")
    if ran.returncode:
        raise cases.Wrong(ran.stderr)


@functools.cache
def built(name):
    return f"{cases.once(build, name)}/harness"


def sanitizes(folder, flag):
    source, program = f"{folder}/empty.c", f"{folder}/empty"
    with open(source, "w") as it:
        it.write("int main(void) { return 0; }\n")
    return run("cc", flag, source, "-o", program).returncode == 0 and run(program).returncode == 0


class Threads(cases.Case):
    def harness(self, name, modes, form, threads, reads, cache, ahead, connections, patience, seed=1, length=LONG, **env):
        blob = Blob(length)
        words = Served(self, blob, *modes.split(), form=form).words
        numbers = [str(it) for it in (threads, reads, seed, cache, ahead, connections, patience)]
        return run(built(name), blob.root, f"{blob.folder}/blob", *numbers, *words, env={**os.environ, **env})

    def tried(self, name, *case):
        flags = [it for it in BUILDS[name] if it.startswith("-fsanitize")]
        if flags and not sanitizes(self.folder(), flags[0]):
            if os.environ.get("BERYLWOOL_CI"):
                self.fail(f"cc {flags[0]} isn't installed")
            self.skipTest(f"cc {flags[0]} isn't installed")
        for seed in (1, 2):
            ran = self.harness(name, *case, seed=seed, BW_DELAYS=str(seed))
            right = ran.returncode == 0 and "failed 0, wrong 0" in ran.stdout and "Sanitizer" not in ran.stderr
            self.holds(right, f"status {ran.returncode}: {ran.stdout}{ran.stderr[:3000]}")

    def test_memory_in_each_read(self):
        """A read that isn't given memory fails, and the same read succeeds then: no pin and no claim is lost."""
        for form in ("bao", "plain"):
            ran = self.harness("plain", "good", form, 4, 300, 1, MIB, 2, 30, REFUSE="0")
            self.holds(ran.returncode == 0 and "without memory 0," not in ran.stdout, f"{form}: status {ran.returncode}: {ran.stdout}{ran.stderr}")

    def test_memory_once(self):
        """One allocation is refused, of those at the start, or while many wait for the same group."""
        for number in range(1, 80):
            ran = self.harness("plain", "good", "bao", 8, 1, 4 * MIB, 0, 2, 30, length=65_536, REFUSE=str(number))
            self.holds(ran.returncode == 0, f"allocation {number}: status {ran.returncode}: {ran.stdout}{ran.stderr}")


cases.each((f"{name}: {case[0]}, {case[1]}, {case[2]} threads", name, *case) for name in BUILDS for case in CASES)(Threads)
