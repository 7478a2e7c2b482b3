#!/usr/bin/env python3
"""Installs the Debian package in a root of its own that has nothing but Debian's base and python3, tries what is in it, and removes it again.

usage: conformance/checks/package.py [--package FILE.deb] [--cache FOLDER]
--package names a package, otherwise tools/deb makes one: the program and the library for C must be built. It takes a superuser, debootstrap, and
cc with pkg-config; lintian judges the package if it is there. The root is made by debootstrap of the machine's own mirror, once, and kept in
FOLDER (~/.cache/flac-proved if not given); each run works on a copy of it. Status 1 if a case failed.

In the root: the program says its version, encodes, tests and decodes a file; each of its commands has a man page; the Python module reads what
the program wrote. A program in C that pkg-config's words link to the library outside runs in it. After dpkg --purge the files of the root are
the same as before, but those in which dpkg and the linker keep their own records.
"""
import argparse
import hashlib
import os
import re
import shutil
import stat
import subprocess
import sys
import tempfile
import wave

TOP = os.path.dirname(os.path.dirname(os.path.dirname(os.path.realpath(__file__))))
TOOLS = ("debootstrap", "dpkg-deb", "cc", "pkg-config")
LIBRARIES = "usr/lib/x86_64-linux-gnu"
# what dpkg and ldconfig write of their own
RECORDS = ("var/lib/dpkg/", "var/log/", "var/cache/ldconfig/", "etc/ld.so.cache")
MAIN = """
int main(void) {
    static uint8_t bytes[1 << 20];
    return print_peak(bytes, fread(bytes, 1, sizeof bytes, stdin));
}
"""
READS = """
import flac_proved
stream = flac_proved.open("/tmp/sound.flac")
stream.verify()
print(stream.info.rate, stream.info.channels, stream.tags["TITLE"], max(abs(x) for row in stream.samples().tolist() for x in row))
"""
cases = 0


def see(holds, what):
    global cases
    cases += 1
    if not holds:
        raise SystemExit(f"package.py: {what}")


def call(*words, **how):
    return subprocess.run(words, capture_output=True, text=True, **how)


def done(*words, **how):
    said = call(*words, **how)
    see(said.returncode == 0, f"{' '.join(words[:4])}: {said.stdout[-600:]}{said.stderr[-600:]}")
    return said.stdout


def mirror():
    """The mirror that apt takes this system's packages from."""
    found = re.findall(r"^\s*(?:500|990) (https?://\S+) ", done("apt-cache", "policy"), re.MULTILINE)
    return next((it for it in found if it.endswith("/debian")), "http://deb.debian.org/debian")


def base(cache):
    """The folder of the clean root, which is made if it is not there."""
    with open("/etc/os-release", encoding="utf-8") as it:
        suite = re.search(r"^VERSION_CODENAME=(\w+)", it.read(), re.MULTILINE)[1]
    root = f"{cache}/{suite}"
    if not os.path.isdir(root):
        os.makedirs(cache, exist_ok=True)
        with tempfile.TemporaryDirectory(dir=cache) as room:
            done("debootstrap", "--variant=minbase", "--include=python3", suite, f"{room}/root", mirror())
            os.rename(f"{room}/root", root)
    return root


def told_of(path):
    """What a file is: its kind and mode, and its bytes or where it points."""
    it = os.lstat(path)
    if stat.S_ISLNK(it.st_mode):
        return os.readlink(path)
    if not stat.S_ISREG(it.st_mode):
        return stat.filemode(it.st_mode)
    with open(path, "rb") as file:
        return stat.filemode(it.st_mode), hashlib.sha256(file.read()).hexdigest()


def files_of(root):
    found = {}
    for at, folders, files in os.walk(root):
        for name in folders + files:
            path = os.path.relpath(f"{at}/{name}", root)
            if not path.startswith(RECORDS):
                found[path] = told_of(f"{root}/{path}")
    return found


class Root:
    """A copy of the clean root."""

    def __init__(self, folder):
        self.folder = folder

    def run(self, *words, **how):
        env = {"PATH": "/usr/sbin:/usr/bin:/sbin:/bin", "LC_ALL": "C.UTF-8", "HOME": "/root", "DEBIAN_FRONTEND": "noninteractive"}
        return done("chroot", self.folder, *words, env=env, **how)

    def path(self, path):
        return f"{self.folder}/{path}"


def peak_program(folder, root):
    """Builds docs/c.md's program against the installed library, by the words of pkg-config, with the shared library and with the archive."""
    with open(f"{TOP}/docs/c.md", encoding="utf-8") as it:
        code = re.search(r"```c\n(#include.*?)```", it.read(), re.DOTALL)[1]
    with open(f"{folder}/peak.c", "w", encoding="utf-8") as it:
        it.write(code + MAIN)
    env = {**os.environ, "PKG_CONFIG_LIBDIR": root.path(f"{LIBRARIES}/pkgconfig"), "PKG_CONFIG_SYSROOT_DIR": root.folder,
           "PKG_CONFIG_ALLOW_SYSTEM_CFLAGS": "1", "PKG_CONFIG_ALLOW_SYSTEM_LIBS": "1"}
    flags, libs = (done("pkg-config", word, "flac_proved", env=env).split() for word in ("--cflags", "--libs"))
    strict = ["-O2", "-Wall", "-Wextra", "-std=c99", "-pedantic", "-Werror"]
    done("cc", *strict, *flags, "-o", root.path("tmp/peak"), f"{folder}/peak.c", *libs)
    done("cc", *strict, *flags, "-o", root.path("tmp/peak_whole"), f"{folder}/peak.c", root.path(f"{LIBRARIES}/libflac_proved.a"))


def tried(folder, root):
    """Tries what the package installed."""
    sound = root.path("tmp/sound.wav")
    with wave.open(sound, "wb") as it:
        it.setparams((2, 2, 44100, 0, "NONE", ""))
        it.writeframes(b"".join((n * 37 % 2001 - 1000).to_bytes(2, "little", signed=True) for n in range(20000)))
    see(re.fullmatch(r"flac \(proved\) [\d.]+\n", root.run("pflac", "--version")), "the version")
    root.run("pflac", "encode", "/tmp/sound.wav", "/tmp/sound.flac", "TITLE=a")
    see("frames" in root.run("pflac", "test", "/tmp/sound.flac"), "the test of a file")
    root.run("pflac", "decode", "/tmp/sound.flac", "/tmp/back.wav")
    with open(sound, "rb") as one, open(root.path("tmp/back.wav"), "rb") as other:
        see(one.read() == other.read(), "the file comes back")
    commands = root.run("pflac", "--help").partition("Commands:\n")[2].partition("\n\n")[0].split("\n")
    for name in ["pflac", *(f"pflac-{line.split()[0]}" for line in commands if line.split()[0] != "help")]:
        see(os.path.isfile(root.path(f"usr/share/man/man1/{name}.1.gz")), f"the man page of {name}")
    peak_program(folder, root)
    for program in ("peak", "peak_whole"):
        with open(root.path("tmp/sound.flac"), encoding="latin-1") as stream:
            see(root.run(f"/tmp/{program}", stdin=stream) == "44100 Hz, 2 channels, peak 1000\n", f"a program in C: {program}")
    see(root.run("python3", "-c", READS) == "44100 2 ['a'] 1000\n", "the module for Python")
    for name in ("sound.wav", "sound.flac", "back.wav", "peak", "peak_whole"):
        os.remove(root.path(f"tmp/{name}"))


def main():
    parser = argparse.ArgumentParser(usage=__doc__.split("usage: ")[1].split("\n")[0])
    parser.add_argument("--package")
    parser.add_argument("--cache", default=os.path.join(os.environ.get("XDG_CACHE_HOME") or os.path.expanduser("~/.cache"), "flac-proved"))
    given, _ = parser.parse_known_args()
    missing = [it for it in TOOLS if not shutil.which(it)]
    if os.geteuid() != 0 or missing:
        print(f"package.py: left out: {', '.join(missing)} {'is' if len(missing) == 1 else 'are'} not there" if missing else "package.py: left out: it takes a superuser")
        return 0
    with tempfile.TemporaryDirectory(prefix="flac-package-") as folder:
        package = given.package or f"{folder}/flac-proved.deb"
        if not given.package:
            done(f"{TOP}/tools/deb", package)
        if shutil.which("lintian"):
            said = call("lintian", "--allow-root", "--fail-on", "error", package)
            see(said.returncode == 0, f"lintian: {said.stdout}{said.stderr[-300:]}")
        root = Root(f"{folder}/root")
        done("cp", "-a", "--reflink=auto", base(given.cache), root.folder)
        before = files_of(root.folder)
        shutil.copy(package, root.path("tmp/flac-proved.deb"))
        root.run("dpkg", "--install", "/tmp/flac-proved.deb")
        os.remove(root.path("tmp/flac-proved.deb"))
        see(len(files_of(root.folder)) > len(before), "files are installed")
        tried(folder, root)
        root.run("dpkg", "--purge", "flac-proved")
        after = files_of(root.folder)
        changed = sorted(path for path in before.keys() | after.keys() if before.get(path) != after.get(path))
        see(not changed, f"files that are not as before: {changed[:9]}")
    print(f"package.py: {cases} cases, all passed")
    return 0


if __name__ == "__main__":
    sys.exit(main())
