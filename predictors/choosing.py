"""Chooses the predictors of a list: candidates from pieces of sounds, fewer of them by an estimate of what they leave, and then one
after another by what the frames cost exactly."""
import numpy

import audio
import family
import fitting
from lists import Predictor

WINDOWS = (0.5, 1.0)
"""The shares of the Tukey windows; the second is a Hann window."""
FIXED = [Predictor(0, 0, one) for one in ((), (1,), (2, -1), (3, -3, 1), (4, -6, 4, -1))]
GROUPS = (16, 64, 160)
"""How many groups of pieces are made, each of which then gives predictors too."""
MOST_FITTED = 1200
"""To how many rows predictors are fitted."""


def pieces(sounds, count, block=4096):
    """Whole blocks, evenly over all sounds, each as what a frame may keep of it, with depths: four of a block of two channels. Of any
    other number of channels each is taken by itself."""
    every = [(sound, start) for sound in sounds for start in range(0, sound.samples.shape[1] - block + 1, block)]
    places = numpy.unique(numpy.linspace(0, len(every) - 1, min(count, len(every))).astype(int)) if every else []
    kept = [audio.kept(audio.block(sound, start, block), sound.depth) for sound, start in (every[place] for place in places)]
    stereo = [len(every[place][0].samples) == 2 for place in places]
    return [frame for rows, pair in zip(kept, stereo) for frame in ([rows] if pair else [[row] for row in rows])]


def correlations(frames, share, order):
    """The autocorrelations of all that is not silence, under a window."""
    rows = [samples for frame in frames for samples, _ in frame if samples.any()]
    window = fitting.tukey(len(rows[0]), share) if rows else None
    return numpy.array([fitting.autocorrelation(row, window, order) for row in rows]).reshape(-1, order + 1)


def unique(predictors):
    return list(dict.fromkeys(predictors))


def energies(sums, predictors):
    """What each predictor leaves of each row, as a share of the row's energy, a row for each predictor."""
    weights = numpy.array([fitting.error_sums(one, sums.shape[1] - 1) for one in predictors])
    return numpy.maximum(weights @ (sums / sums[:, :1]).T, 1e-12)


def estimates(sums, predictors, block):
    """About how many bits each row takes by each predictor, a row for each predictor."""
    result = numpy.zeros((len(predictors), len(sums)), numpy.float32)
    for start in range(0, len(predictors), 500):
        some = predictors[start:start + 500]
        fields = numpy.array([(one.precision + 16) * len(one.coefficients) for one in some])
        energy = energies(sums, some) * (sums[:, 0] / block)
        result[start:start + 500] = block / 2 * numpy.log2(energy + 0.1) + fields[:, None]
    return result


def reduced(costs, current, count):
    """The rows of `costs` that lower the sum of the cheapest most, one after another, at most so many. What a row gains only falls
    while others are chosen, so that most of them need not be worked out again."""
    chosen, bounds = [], numpy.full(len(costs), numpy.inf)
    while len(chosen) < count:
        best, gain = -1, 0
        for place in numpy.argsort(-bounds, kind="stable"):
            if bounds[place] <= gain:
                break
            bounds[place] = numpy.maximum(current - costs[place], 0).sum()
            if bounds[place] > gain:
                best, gain = int(place), bounds[place]
        if best < 0:
            break
        chosen.append(best)
        current, bounds[best] = numpy.minimum(current, costs[best]), 0
    return chosen


def grouped(sums, predictors, orders, precision):
    """Predictors that are fitted to groups of rows: each row goes to the predictor that leaves the least of it, and each group has
    a predictor made of its rows, weighed by what was left. Done a few times over."""
    for _ in range(4):
        left = energies(sums, predictors)
        nearest = left.argmin(axis=0)
        weighed = sums / sums[:, :1] / left.min(axis=0)[:, None]
        means = [weighed[nearest == group].sum(axis=0) for group in numpy.unique(nearest)]
        predictors = unique(one for mean in means for one in fitting.fitted(mean, orders[-1:], [precision]))
    return unique(one for mean in means for one in fitting.fitted(mean, orders, [precision]))


def candidates(frames, order, precision, count):
    """At most so many predictors, of which many pieces are well predicted by an estimate."""
    orders = fitting.orders_up_to(order)
    block = len(frames[0][0][0])
    by_window = [correlations(frames, share, max(order, 4)) for share in WINDOWS]
    sums = by_window[0]
    step = -(-len(sums) // MOST_FITTED) or 1
    made = unique(one for each in by_window for row in each[::step] for one in fitting.fitted(row, orders, [precision]))
    if not made:
        return []
    start = estimates(sums, FIXED, block).min(axis=0)
    made = [made[place] for place in reduced(estimates(sums, made, block), start, count)]
    made = unique(made + [one for many in GROUPS if made for one in grouped(sums, made[:many], orders, precision)])
    return [made[place] for place in reduced(estimates(sums, made, block), start, count)]


def costs(frames, predictors):
    """For each frame and all that it may keep, the cost of the cheapest subframe without a linear predictor, and by each."""
    rows = family.table(predictors)
    return [numpy.array([family.subframe_costs(samples, depth, rows) for samples, depth in frame]) for frame in frames]


def totals(found, current):
    """The bits of all frames, for each predictor that may come to those whose cheapest subframes are `current`."""
    least = [numpy.minimum(now[:, :, None], each).swapaxes(1, 2) for now, each in zip(current, found)]
    return sum(family.subframes_bits(each, each.shape[2] == 4).sum(axis=0) for each in least)


def chosen(found, count):
    """The places of the predictors that save most, one after another, at most so many."""
    shapes = sorted({len(each) for each in found})
    found = [numpy.array([each for each in found if len(each) == shape]) for shape in shapes]
    current, result = [each[:, :, 0] for each in found], []
    while len(result) < count:
        best = int(totals(found, current).argmin())
        if best == 0:
            break
        result.append(best - 1)
        current = [numpy.minimum(old, each[:, :, best]) for old, each in zip(current, found)]
    return result


def made(sounds, count, order, precision, most_frames, most_candidates):
    """A list for sounds."""
    frames = pieces(sounds, most_frames)
    tried = candidates(frames, order, precision, most_candidates) if frames else []
    return [tried[place] for place in chosen(costs(frames, tried), count)] if tried else []
