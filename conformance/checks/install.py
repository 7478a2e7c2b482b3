#!/usr/bin/env python3
"""Installs the built program into new folders, and looks at what is there: pages and completions against the program's help, files of others
that stay, and that nothing is left when it is removed.

usage: conformance/checks/install.py      (the program must be built; man, if there is one, must read each page without a warning)
"""
import os
import re
import shutil
import subprocess
import tempfile

TOP = os.path.dirname(os.path.dirname(os.path.dirname(os.path.realpath(__file__))))
PROGRAM = f"{TOP}/crates/flac/out/flac"
cases = 0


def call(*words, **how):
    return subprocess.run(words, capture_output=True, text=True, **how)


def see(holds, what):
    global cases
    cases += 1
    if not holds:
        raise SystemExit(f"install.py: {what}")


def tree(folder):
    return sorted(os.path.relpath(f"{at}/{it}", folder) for at, _, files in os.walk(folder) for it in files)


def help_of(*command):
    said = call(PROGRAM, *command, "--help")
    see(said.returncode == 0, f"help of {command}: {said.returncode}")
    return said.stdout


def options_of(text):
    return set(re.findall(r"^ {2,6}(?:-\w, )?(--[\w-]+)", text, re.MULTILINE))


def commands():
    part = help_of().partition("Commands:\n")[2].partition("\n\n")[0]
    return [line.split()[0] for line in part.split("\n") if line.split()[0] != "help"]


def pages_fit(folder, name):
    for it in commands():
        options = options_of(help_of(it))
        with open(f"{folder}/share/man/man1/{name}-{it}.1", encoding="utf-8") as page:
            text = page.read().replace("\\-", "-")
        see(set(re.findall(r"^\\fB(?:-\w, )?(--[\w-]+)", text, re.MULTILINE)) == options, f"the options of the page of {it}")
        words = call("bash", "-c", f'. {folder}/share/bash-completion/completions/{name}; COMP_WORDS=({name} {it} --); COMP_CWORD=2; '
                     f'_{name}; printf "%s\\n" "${{COMPREPLY[@]}}"').stdout.split()
        see(set(words) == options, f"the words that bash completes after {it}: {words}")
        with open(f"{folder}/share/zsh/site-functions/_{name}", encoding="utf-8") as completion:
            row = next(line for line in completion if line.strip().startswith(f"{it})"))
        see(set(re.findall(r"'(--[\w-]+)\[", row)) == options, f"the words that zsh completes after {it}")
    if shutil.which("man"):
        for page in tree(f"{folder}/share/man/man1"):
            said = call("man", "--warnings", "-l", f"{folder}/share/man/man1/{page}", env={**os.environ, "MANROFFSEQ": "", "LC_ALL": "C.UTF-8"})
            see(said.returncode == 0 and not said.stderr, f"man reads {page}: {said.stderr[:200]}")


def main():
    with tempfile.TemporaryDirectory() as room:
        folder = f"{room}/some where"
        os.makedirs(f"{folder}/bin")
        with open(f"{folder}/bin/flac", "w", encoding="utf-8") as it:
            it.write("another program\n")
        said = call(f"{TOP}/tools/install", "--program", folder)
        see(said.returncode == 1 and "is there, of another program" in said.stderr, f"a file of another program: {said}")
        see(tree(folder) == ["bin/flac"], "nothing is written beside it")
        for _ in range(2):
            said = call(f"{TOP}/tools/install", "--program", "--name", "pflac", folder)
            see(said.returncode == 0, f"an installation: {said}")
        with open(PROGRAM, "rb") as one, open(f"{folder}/bin/pflac", "rb") as other:
            see(one.read() == other.read(), "the program is the one that was built")
        see(call(f"{folder}/bin/pflac", "--help").stdout == help_of().replace("Usage: flac", "Usage: pflac"), "the installed program runs")
        os.symlink(folder, f"{room}/linked")
        pages_fit(f"{room}/linked", "pflac")
        said = call(f"{TOP}/tools/uninstall", "--name", "pflac", folder)
        see(said.returncode == 0 and tree(folder) == ["bin/flac"], f"removal: {said}, {tree(folder)}")
        see(sorted(os.listdir(folder)) == ["bin"], "no folder is left")
        said = call(f"{TOP}/tools/uninstall", "--name", "pflac", folder)
        see(said.returncode == 1 and "nothing is installed" in said.stderr, "a second removal")
        env = {**os.environ, "DESTDIR": f"{room}/root"}
        see(call(f"{TOP}/tools/install", "--program", "/usr", env=env).returncode == 0, "DESTDIR")
        see("usr/bin/flac" in tree(f"{room}/root"), "what is below DESTDIR")
    print(f"install.py: {cases} cases, all passed")


if __name__ == "__main__":
    main()
