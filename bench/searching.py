"""How long the search for subframes takes with linear predictors, which the program cannot be given: a table for `kernels --predictors`.

bench/search is proved and built beside copies of the two libraries that it needs, in a minute or two. It searches the first 20 blocks of
4096 samples of the left channel, with predictors of order 8 that are fitted to parts of the same samples.
"""
import os
import shutil
import statistics
import subprocess
import sys

import measure

TOP = os.path.dirname(measure.HERE)
LIBRARIES = ("flac_bits", "flac_subframe")
BLOCK, BLOCKS, ORDER = 4096, 20, 8
COUNTS = (0, 1, 8, 32)
ROUNDS = {0: 30, 1: 30, 8: 15, 32: 5}


def built(folder):
    """The program bench/search, built in a repository of its own."""
    crates = os.path.join(folder, "crates")
    for name in LIBRARIES:
        shutil.copytree(f"{TOP}/crates/{name}", f"{crates}/{name}")
    shutil.copytree(f"{measure.HERE}/search", f"{crates}/search")
    # (the gate refuses files that no check reads, so they end in .txt in the repository)
    for at, _, names in os.walk(f"{crates}/search"):
        for name in names:
            os.rename(f"{at}/{name}", f"{at}/{name.removesuffix('.txt')}")
    with open(f"{TOP}/crates.txt") as file:
        lines = [line for line in file if line.split(":")[0] in LIBRARIES]
    with open(f"{folder}/crates.txt", "w") as file:
        file.write("".join(lines) + f"search: {' '.join(LIBRARIES)}\n")
    with open(f"{crates}/search/in.txt", "w") as file:
        file.write("0 0 8\n")
    ran = subprocess.run(["rt", "run"], cwd=f"{crates}/search", stdout=subprocess.PIPE, stderr=subprocess.STDOUT, errors="replace", check=False)
    if ran.returncode:
        sys.exit(ran.stdout)
    return f"{crates}/search/out/search"


def fitted(samples, order):
    """The coefficients of a predictor by the Levinson-Durbin recursion, with a shift of 12."""
    lags = [sum(a * b for a, b in zip(samples, samples[lag:])) for lag in range(order + 1)]
    error, weights = lags[0] * (1 + 1e-9) + 1, []
    for step in range(order):
        rest = lags[step + 1] - sum(weight * lags[step - at] for at, weight in enumerate(weights))
        turn = rest / error
        weights = [weight - turn * back for weight, back in zip(weights, reversed(weights))] + [turn]
        error *= 1 - turn * turn
    return [max(-4096, min(4095, round(weight * 4096))) for weight in weights]


def left_channel(form, seconds):
    """The samples of the left channel."""
    size = form.bits // 8
    with open(measure.audio(form, seconds), "rb") as file:
        data = file.read(BLOCK * BLOCKS * size * form.channels)
    step = size * form.channels
    return [int.from_bytes(data[at:at + size], "little", signed=True) for at in range(0, len(data), step)]


def put(folder, rounds, predictors, samples):
    """Writes what the program reads."""
    lines = [f"{rounds} {len(predictors)} {ORDER}", *(" ".join(map(str, each)) for each in predictors), *map(str, samples)]
    with open(f"{folder}/in.txt", "w") as file:
        file.write("\n".join(lines))


def nanoseconds(program, folder, count, predictors, samples, runs):
    """The median of runs, in nanoseconds a sample, without the time that reading takes."""
    seconds = {}
    for rounds in (ROUNDS[count], 0):
        put(folder, rounds, predictors[:count], samples)
        seconds[rounds] = statistics.median(measure.once([program]) for _ in range(runs))
    return (seconds[ROUNDS[count]] - seconds[0]) * 1e9 / (ROUNDS[count] * len(samples))


def table(folder, seconds, runs):
    program = built(folder)
    os.chdir(folder)
    measure.head("search, by the number of predictors", *COUNTS)
    for form in measure.FORMS:
        samples = left_channel(form, seconds)
        starts = [at * 7 % BLOCKS * BLOCK + at * 37 for at in range(max(COUNTS))]
        predictors = [fitted(samples[start:start + BLOCK // 2], ORDER) for start in starts]
        cells = [nanoseconds(program, folder, count, predictors, samples, runs) for count in COUNTS]
        measure.row(form.label, *(f"{cell:.1f}" for cell in cells))
    return 0
