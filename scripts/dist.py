#!/usr/bin/env python3
"""Puts what was built where it belongs, by the table packaging/files.txt.

At the top of the repository. WHAT is install, uninstall, dist or deb, and each word is NAME=VALUE, LEVEL=MADE or a PART. A PART is one of the table's, and MADE
the folder with the builds for a processor level: bao_gather and libberylwool.so, and for the first level, which every processor has that this is for,
libberylwool.a. NAMEs are those of the Makefile, DESTDIR among them.

install copies files, and uninstall removes the files that install would copy. dist makes out/dist, the folder of a release, which works wherever it is moved
to, and an archive of it, and refuses files that aren't as the commit has them; BUILD names the versions, the commit, the kit and the levels, and SHA256SUMS has
all of it. deb makes Debian packages in out/deb. It needs dpkg-dev and binutils. Their version has the commit and its time, which SOURCE_DATE_EPOCH replaces.
"""
import contextlib
import glob
import gzip
import hashlib
import os
import re
import shutil
import subprocess
import sys
import tarfile
import time

import script

ROOT = os.path.dirname(os.path.dirname(os.path.abspath(__file__)))
DIST, DEB = f"{ROOT}/out/dist", f"{ROOT}/out/deb"
NAME, LIBRARY = "bao_gather", "libberylwool0"


def said(*words, **how):
    ran = subprocess.run(words, stdout=subprocess.PIPE, text=True, **how)
    if ran.returncode:
        sys.exit(f"dist: status {ran.returncode}: {' '.join(words)}")
    return ran.stdout.strip()


def text_of(file):
    with open(file, encoding="utf-8") as it:
        return it.read()


def write(file, text):
    os.makedirs(os.path.dirname(file), exist_ok=True)
    with open(file, "wb") as it:
        it.write(text if isinstance(text, bytes) else text.encode())


def version():
    return re.search(r"^Version: (.+)$", text_of(f"{ROOT}/c/berylwool.pc.in"), re.M)[1]


def dirs_of(prefix, **others):
    """The folders of the table, each below the prefix unless it is named."""
    dirs = {"prefix": prefix, "datadir": f"{prefix}/share"} | others
    for name, below in (("bin", prefix), ("lib", prefix), ("include", prefix), ("libexec", prefix), ("man", dirs["datadir"])):
        dirs.setdefault(f"{name}dir", f"{below}/{name}")
    return {"zshdir": f"{dirs['datadir']}/zsh/site-functions"} | dirs


def rows(use, parts, levels, dirs):
    """The table's lines for a use: the package of each file, the file, and where it goes."""
    found = {}
    for line in text_of(f"{ROOT}/packaging/files.txt").splitlines():
        if not line or line.startswith("#"):
            continue
        part, uses, package, *places = line.split()
        if part not in parts or use not in uses.split(","):
            continue
        for level, made in levels or [("", "")]:
            first = (levels or [("", "")])[0][1]
            hwcaps = "" if made == first else f"glibc-hwcaps/{level}/"
            source, to = (it.format_map(dirs | {"level": level, "made": made, "first": first, "hwcaps": hwcaps}) for it in places)
            files = sorted(glob.glob(source, root_dir=ROOT)) if "*" in source else [source]
            for file in files:
                found[package, file, to + os.path.basename(file) if to.endswith("/") else to] = None
    return found


def put(file, to, is_program=False, names=None):
    os.makedirs(os.path.dirname(to), exist_ok=True)
    with contextlib.suppress(FileNotFoundError):
        os.remove(to)
    if file.startswith("->"):
        os.symlink(file[2:], to)
        return
    if file.endswith(".in"):
        write(to, re.sub(r"@(\w+)@", lambda it: names[it[1].lower()], text_of(f"{ROOT}/{file}")))
    else:
        shutil.copyfile(os.path.join(ROOT, file), to)
    os.chmod(to, 0o755 if is_program else 0o644)


def lay(use, parts, levels, dirs, root_of, names=None):
    """Puts the table's files for a use below the root of their package, and returns their paths below it."""
    found = rows(use, parts, levels, dirs)
    for package, file, to in found:
        put(file, root_of(package) + to, to.startswith((f"{dirs['bindir']}/", f"{dirs['libexecdir']}/")), names or dirs)
    return [to for _, _, to in found]


def lay_dist(parts, levels, folder):
    """As it is in a release: pkg-config finds the library wherever the folder is moved to."""
    names = {"prefix": "${pcfiledir}/../..", "libdir": "${prefix}/lib", "includedir": "${prefix}/include"}
    return lay("dist", parts, levels, dirs_of(""), lambda _: str(folder), names)


def dist(parts, levels):
    changed = said("git", "status", "--porcelain")
    if changed:
        sys.exit(f"dist: these files aren't as the commit has them:\n{changed}")
    head, kit = said("git", "rev-parse", "HEAD"), said("rt", "version")
    shutil.rmtree(DIST, ignore_errors=True)
    files = lay_dist(parts, levels, DIST)
    versions = {said(f"{DIST}/bin/{level}/{NAME}", "--version") for level, _ in levels}
    if len(versions) > 1:
        sys.exit(f"dist: the programs are of several versions: {', '.join(sorted(versions))}")
    write(f"{DIST}/BUILD", f"{versions.pop()}\nberylwool {version()}\ncommit {head}\nrt {kit}\nlevels {' '.join(level for level, _ in levels)}\n")
    files = sorted([it[1:] for it in files] + ["BUILD"])
    sums = [f"{sum_of(f'{DIST}/{it}', 'sha256')}  {it}\n" for it in files]
    write(f"{DIST}/SHA256SUMS", "".join(sums))
    print(f"{DIST}: {len(files)} files, and SHA256SUMS")
    print(os.path.relpath(archive([*files, "SHA256SUMS"]), ROOT))


def archive(files):
    """Puts files of out/dist into an archive, whose bytes depend on nothing else but the time of the commit."""
    name, (_, when) = f"berylwool-{version()}-linux-x86_64", commit()

    def owned(it):
        it.uid, it.gid, it.uname, it.gname, it.mtime = 0, 0, "", "", when
        return it

    with open(f"{ROOT}/out/{name}.tar.gz", "wb") as out, gzip.GzipFile("", "wb", fileobj=out, mtime=0) as zipped, tarfile.open(fileobj=zipped, mode="w") as tar:
        for it in files:
            tar.add(f"{DIST}/{it}", f"{name}/{it}", filter=owned)
    return f"{ROOT}/out/{name}.tar.gz"


def sum_of(file, kind):
    with open(file, "rb") as it:
        return hashlib.new(kind, it.read()).hexdigest()


def commit():
    """The packages' version, and the time of the commit. Without git, that of a file stands for it."""
    def git(*words):
        return subprocess.run(["git", *words], capture_output=True, text=True).stdout.strip()

    when = int(os.environ.get("SOURCE_DATE_EPOCH") or git("show", "--no-patch", "--format=%ct", "HEAD") or os.path.getmtime("CHANGELOG.md"))
    at = git("describe", "--always", "--abbrev=12", "--dirty=.changed", "--exclude=*") or "unknown"
    is_release = git("tag", "--points-at", "HEAD", f"v{version()}") and "." not in at
    return version() if is_release else f"{version()}~git{time.strftime('%Y%m%d%H%M%S', time.gmtime(when))}.{at}", when


def deb(parts, levels):
    """Stages each package in out/deb/debian/PACKAGE, where the tools of dpkg-dev look for it, and builds it."""
    numbered, when = commit()
    if levels[0][0] != "x86-64":
        numbered += f"+{levels[0][0].replace('-', '.')}"
    os.environ |= {"SOURCE_DATE_EPOCH": str(when), "LC_ALL": "C.UTF-8"}
    os.umask(0o022)
    shutil.rmtree(DEB, ignore_errors=True)
    shutil.copytree(f"{ROOT}/packaging/debian", f"{DEB}/debian")
    owner = re.search(r"^Maintainer: (.+)$", text_of(f"{DEB}/debian/control"), re.M)[1]
    date = time.strftime("%a, %d %b %Y %H:%M:%S +0000", time.gmtime(when))
    log = f"berylwool ({numbered}) UNRELEASED; urgency=medium\n\n  * Built from the sources of this version.\n\n -- {owner}  {date}\n"
    write(f"{DEB}/debian/changelog", log)
    libdir = f"/usr/lib/{said('dpkg-architecture', '-qDEB_HOST_MULTIARCH')}"
    dirs = dirs_of("/usr", libdir=libdir, nbdkitdir=f"{libdir}/nbdkit/plugins", zshdir="/usr/share/zsh/vendor-completions")
    lay("deb", parts, levels, dirs, lambda package: f"{DEB}/debian/{package}")
    # (in this order, since the programs depend on the library)
    for package in re.findall(r"^Package: (.+)$", text_of(f"{DEB}/debian/control"), re.M):
        if os.path.isdir(f"{DEB}/debian/{package}"):
            print(os.path.relpath(build(package, numbered, when, log), ROOT))


def build(package, numbered, when, log):
    folder = f"debian/{package}"
    share = f"{DEB}/{folder}/usr/share"
    put("packaging/debian/copyright", f"{share}/doc/{package}/copyright")
    put("packaging/debian/lintian-overrides", f"{share}/lintian/overrides/{package}")
    write(f"{share}/doc/{package}/changelog", log)
    files = [f"{at}/{it}" for at, _, names in os.walk(f"{DEB}/{folder}") for it in names]
    files = sorted(packed(it) for it in files if not os.path.islink(it))
    linked = [os.path.relpath(it, DEB) for it in files if is_elf(it)]
    write(f"{DEB}/{folder}/DEBIAN/md5sums", "".join(f"{sum_of(it, 'md5')}  {os.path.relpath(it, f'{DEB}/{folder}')}\n" for it in files))
    if package == LIBRARY:
        write(f"{DEB}/{folder}/DEBIAN/shlibs", f"libberylwool 0 {package} (>= {numbered})\n")
        write(f"{DEB}/{folder}/DEBIAN/triggers", "activate-noawait ldconfig\n")
    variables = f"{folder}.substvars"
    write(f"{DEB}/{variables}", "")
    if linked:
        said("dpkg-shlibdeps", f"-T{variables}", *linked, cwd=DEB)
    said("dpkg-gencontrol", f"-p{package}", f"-P{folder}", f"-T{variables}", cwd=DEB)
    for at, _, names in os.walk(f"{DEB}/{folder}"):
        for it in ["", *names]:
            os.utime(f"{at}/{it}", (when, when), follow_symlinks=False)
    # (one thread, since what several write differs)
    built = said("dpkg-deb", "--root-owner-group", "--threads-max=1", "--build", folder, ".", cwd=DEB)
    return f"{DEB}/{re.search(r'[^/]+[.]deb', built)[0]}"


def is_elf(file):
    with open(file, "rb") as it:
        return it.read(4) == b"\x7fELF"


def packed(file):
    """Debian's form of a file: without what is for debuggers alone, and compressed where that is asked for. Returns its path."""
    if re.search(r"/man/man\d/|/changelog$", file):
        with open(file, "rb") as it:
            write(f"{file}.gz", gzip.compress(it.read(), 9, mtime=0))
        os.remove(file)
        return f"{file}.gz"
    if is_elf(file) or file.endswith(".a"):
        said("strip", "--strip-debug" if file.endswith(".a") else "--strip-unneeded", "--remove-section=.comment", "--remove-section=.note", file)
    return file


def main(what, *words):
    if what not in ("install", "uninstall", "dist", "deb"):
        sys.exit(f"dist: there is no {what}")
    named = dict(it.split("=", 1) for it in words if "=" in it)
    parts, levels = [it for it in words if "=" not in it], [(name, it) for name, it in named.items() if name.startswith("x86-64")]
    if what in ("dist", "deb"):
        {"dist": dist, "deb": deb}[what](parts, levels)
        return
    dirs = dirs_of(**{name: it for name, it in named.items() if name != "DESTDIR" and not name.startswith("x86-64")})
    if what == "install":
        print(f"{len(lay('install', parts, levels, dirs, lambda _: named['DESTDIR']))} files in {named['DESTDIR']}{named['prefix']}")
        return
    for _, _, it in rows("install", parts, levels, dirs):
        with contextlib.suppress(FileNotFoundError):
            os.remove(named["DESTDIR"] + it)


if __name__ == "__main__":
    script.run(main)
