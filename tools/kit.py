"""The kit's script rt, as a module. Kits differ: what one lacks of what is used here is added."""
import ctypes
import importlib.machinery
import importlib.util
import os
import re
import shutil
import sys
import threading

# Linux's prctl: by how many nanoseconds a sleep may be longer than was asked
PR_SET_TIMERSLACK = 29
# what a check prints that came to no verdict
NO_VERDICT = re.compile(r"^rattle: no verdict")


def linked(folder, to):
    """A copy of a folder whose files are links. A check writes a file anew in place of an old one, so it changes none of the others."""
    shutil.copytree(folder, to, copy_function=os.link)


def wake_seldom():
    """Lets what this process starts sleep for up to 2 ms longer. A prover with several jobs asks every 100 microseconds whether one has ended,
    and each time takes a processor from a job."""
    ctypes.CDLL(None).prctl(PR_SET_TIMERSLACK, ctypes.c_ulong(2_000_000), 0, 0, 0)


def stamp_once(rtlib):
    """Lets a crate's sum of its files and of those of all crates below read each crate once, where the kit's reads it once for each way that leads
    down to it: flac_cli has 1613 of them, which take a minute."""
    plain, under_way = rtlib.Crate.stamp, threading.local()

    def stamp(self):
        if getattr(under_way, "sums", None) is None:
            under_way.sums = {}
            try:
                return stamp(self)
            finally:
                under_way.sums = None
        if self.folder not in under_way.sums:
            under_way.sums[self.folder] = plain(self)
        return under_way.sums[self.folder]

    rtlib.Crate.stamp = stamp


def script():
    # what the prover frees it keeps for itself: giving it back to the system and asking for it again takes 5 % of its time
    os.environ.setdefault("MIMALLOC_PURGE_DELAY", "-1")
    wake_seldom()
    file = os.path.realpath(shutil.which("rt") or sys.exit("there is no command rt"))
    sys.dont_write_bytecode = True
    loader = importlib.machinery.SourceFileLoader("rt", file)
    module = importlib.util.module_from_spec(importlib.util.spec_from_loader("rt", loader))
    loader.exec_module(module)
    for name, value in {"linked": linked, "LIMITS": NO_VERDICT, "REFUSED": "refused"}.items():
        if not hasattr(module, name):
            setattr(module, name, value)
    stamp_once(module.rtlib)
    return module


def bodies(file, room):
    """The wrong bodies of a file, each as an edit of its own in this folder: what follows a line '# NAME' is NAME.edit. A file without such
    lines is one edit, and is not copied."""
    with open(file, encoding="utf-8") as it:
        first, *parts = re.split(r"^# (\w+)$\n", it.read(), flags=re.MULTILINE)
    if parts and re.search(r"^(file|old|new):", first, flags=re.MULTILINE):
        raise ValueError(f"{file}: a body has no name")
    # (two bodies under one name would count as one, for which one refusal is enough)
    if parts and any(re.search(r"^#", it, flags=re.MULTILINE) for it in [first, *parts[1::2]]):
        raise ValueError(f"{file}: a line with # is not '# NAME'")
    if not parts:
        return [file]
    made = []
    for name, text in zip(parts[::2], parts[1::2]):
        made.append(f"{room}/{name}.edit")
        with open(made[-1], "x", encoding="utf-8") as it:
            it.write(text)
    return made
