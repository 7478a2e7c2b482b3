"""Linear predictors that are fitted to pieces of sound: windows, autocorrelation, the Levinson-Durbin recursion, and whole
coefficients, as the reference encoder does it."""
import math

import numpy

from lists import Predictor

MOST_SHIFT = 15


def tukey(length, share):
    """A window whose sides, a share of it together, are halves of a cosine; the Hann window if the share is 1."""
    places = numpy.arange(length) / max(length - 1, 1)
    side = numpy.minimum(places, 1 - places) * 2 / share
    return numpy.where(side < 1, 0.5 - 0.5 * numpy.cos(numpy.pi * side), 1.0)


def autocorrelation(samples, window, order):
    """The sums of products of windowed samples with those 0 to `order` places before."""
    values = samples * window
    return numpy.array([values[lag:] @ values[:len(values) - lag] for lag in range(order + 1)])


def levinson(sums):
    """The coefficients of the predictors of the orders 1 up, of an autocorrelation, as long as an error is left."""
    error, coefficients, result = float(sums[0]), numpy.zeros(0), []
    for order in range(1, len(sums)):
        if error <= 0:
            break
        reflection = (sums[order] - coefficients @ sums[order - 1:0:-1]) / error
        coefficients = numpy.append(coefficients - reflection * coefficients[::-1], reflection)
        error *= 1 - reflection * reflection
        result.append(coefficients)
    return result


def whole(coefficients, precision):
    """The predictor of these coefficients: the largest one determines the shift, and what rounding leaves of one goes into the
    next. None if the shift were negative, or if nothing is left of the coefficients."""
    largest = float(numpy.max(numpy.abs(coefficients), initial=0))
    if not 0 < largest < math.inf:
        return None
    shift = min(precision - 1 - math.frexp(largest)[1], MOST_SHIFT)
    if shift < 0:
        return None
    error, result, greatest = 0.0, [], (1 << precision - 1) - 1
    for one in coefficients:
        error += float(one) * (1 << shift)
        result.append(max(-greatest - 1, min(greatest, round(error))))
        error -= result[-1]
    return Predictor(precision, shift, tuple(result)) if any(result) else None


def orders_up_to(greatest):
    """The orders that are fitted."""
    return [*range(2, min(greatest, 12) + 1, 2), *range(16, greatest + 1, 4)] if greatest > 1 else [1]


def fitted(sums, orders, precisions):
    """The predictors of an autocorrelation, of these orders and precisions."""
    found = levinson(sums)
    made = [whole(found[order - 1], precision) for order in orders if order <= len(found) for precision in precisions]
    return [one for one in made if one]


def error_sums(predictor, greatest):
    """What the sums of an autocorrelation are multiplied with to give the energy of what a predictor leaves."""
    taps = numpy.concatenate([[1.0], -numpy.array(predictor.coefficients) / (1 << predictor.shift)])
    result = numpy.zeros(greatest + 1)
    for lag in range(len(taps)):
        result[lag] = (1 if lag == 0 else 2) * (taps[lag:] @ taps[:len(taps) - lag])
    return result
