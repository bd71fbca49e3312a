"""The search: scipy's differential evolution over whole numbers, and how sharply its points tell each parameter."""

from __future__ import annotations

import math
from collections.abc import Mapping
from dataclasses import dataclass

import numpy

from biqsolur.calibrate.config import Calibration, Parameter
from biqsolur.calibrate.evaluate import Evaluator, Objective
from biqsolur.calibrate.journal import Moments, Values

RISE = 3.841458820694124        # the 95 per cent quantile of the chi-squared law with one degree
PROFILE = 41                    # places at which a profile is taken
FAR = 1e12                      # stands for a distance without end, which the search could not order


def search(calibration: Calibration, evaluator: Evaluator, objective: Objective) -> None:
    """Lets differential evolution (Storn and Price 1997) ask for points, generation by generation; the journal has them
    all. The same configuration asks for the same points, so a search that was interrupted goes on where it was."""
    from scipy.optimize import differential_evolution

    def distances(places: numpy.ndarray) -> numpy.ndarray:
        points = [values_at(calibration, column) for column in places.T]
        found = [objective.distance(moments) for moments in evaluator.moments(points)]
        return numpy.minimum(numpy.array(found), FAR)

    count = len(calibration.parameters)
    own = numpy.array([parameter.place(value)
                       for parameter, value in zip(calibration.parameters, calibration.own_values)])
    differential_evolution(
        distances, [(0.0, 1.0)] * count, maxiter=calibration.generations, popsize=calibration.population,
        seed=calibration.seed, init="latinhypercube", x0=own, polish=False, updating="deferred", vectorized=True,
        tol=0.0, atol=0.0)


def values_at(calibration: Calibration, places: numpy.ndarray) -> Values:
    """The whole numbers at places from 0 to 1."""
    return tuple(parameter.value(float(place)) for parameter, place in zip(calibration.parameters, places))


@dataclass(frozen=True)
class Surface:
    """The mean moments as full quadratic functions of the places, fitted to the points nearest to the best one.

    coefficients: shape (terms, moments). center: the best point's places. places: of the points it was fitted to.
    residual: the variance of the points' means about the fit, a number a moment: what the fit doesn't know adds to the
    squared standard errors by which a distance is measured.
    """

    coefficients: numpy.ndarray
    center: numpy.ndarray
    places: numpy.ndarray
    residual: numpy.ndarray

    def distance(self, places: numpy.ndarray, objective: Objective) -> float:
        """The objective at places, by the fitted moments."""
        means = terms_of((places - self.center)[None, :]) @ self.coefficients
        weights = 1 / (1 / objective.weights + self.residual)
        return float((weights * (means[0] - objective.targets)**2).sum())


def terms_of(steps: numpy.ndarray) -> numpy.ndarray:
    """The terms of a quadratic function: 1, each step, and each product of two. Shape (points, terms)."""
    count = steps.shape[1]
    products = [steps[:, first] * steps[:, second] for first in range(count) for second in range(first, count)]
    return numpy.column_stack([numpy.ones(len(steps)), steps, *products])


def surface_of(calibration: Calibration, known: Mapping[Values, Moments], objective: Objective) -> Surface | None:
    """The surface over the evaluated points that have all moments: of those nearest to the best, three times as many as
    there are terms, or a third of all where that is more. None where they are fewer than twice the terms."""
    points = [(values, numpy.array(moments).mean(axis=0)) for values, moments in known.items()
              if math.isfinite(objective.distance(moments))]
    count = len(calibration.parameters)
    terms = 1 + count + count * (count + 1) // 2
    if len(points) < 2 * terms:
        return None
    places = numpy.array([places_of(calibration.parameters, values) for values, _ in points])
    means = numpy.array([mean for _, mean in points])
    distances = (objective.weights * (means - objective.targets)**2).sum(axis=1)
    center = places[distances.argmin()]
    near = numpy.argsort(((places - center)**2).sum(axis=1), kind="stable")[:max(3 * terms, len(points) // 3)]
    rows = terms_of(places[near] - center)
    fitted = numpy.linalg.lstsq(rows, means[near], rcond=None)[0]
    residual = ((means[near] - rows @ fitted)**2).sum(axis=0) / (len(near) - terms)
    return Surface(fitted, center, places[near], residual)


def places_of(parameters: tuple[Parameter, ...], values: Values) -> list[float]:
    """The places of a point, from 0 to 1."""
    return [parameter.place(value) for parameter, value in zip(parameters, values)]


@dataclass(frozen=True)
class Profile:
    """How sharply a parameter is told: for each of its values the least distance over all other parameters, on the
    surface.

    values and distances: shape (41,). low and high: the ends of the values around the least distance at which it has
    risen by no more than 3.84; they are the interval of 95 per cent where the weights are right. told: whether both
    ends lie inside of the part of the range that was looked at.
    """

    parameter: Parameter
    values: numpy.ndarray
    distances: numpy.ndarray
    low: float
    high: float
    told: bool


def least(surface: Surface, objective: Objective, held: Mapping[int, float], count: int) -> tuple[float, numpy.ndarray]:
    """The least distance on the surface within the box of the points that it was fitted to, with some places held."""
    from scipy.optimize import minimize
    low, high = surface.places.min(axis=0), surface.places.max(axis=0)
    free = [place for place in range(count) if place not in held]

    def whole(part: numpy.ndarray) -> numpy.ndarray:
        places = surface.center.copy()
        places[free] = part
        for place, value in held.items():
            places[place] = value
        return places

    if not free:
        places = whole(numpy.zeros(0))
        return surface.distance(places, objective), places
    starts = [surface.center[free], (low + high)[free] / 2]
    found = [minimize(lambda part: surface.distance(whole(part), objective), start, method="L-BFGS-B",
                      bounds=list(zip(low[free], high[free]))) for start in starts]
    best = min(found, key=lambda one: one.fun)
    return float(best.fun), whole(best.x)


def profile_of(calibration: Calibration, surface: Surface, objective: Objective, number: int) -> Profile:
    """The profile of the parameter of this number."""
    parameter, count = calibration.parameters[number], len(calibration.parameters)
    low, high = surface.places[:, number].min(), surface.places[:, number].max()
    grid = numpy.linspace(low, high, PROFILE)
    distances = numpy.array([least(surface, objective, {number: float(place)}, count)[0] for place in grid])
    bottom = int(distances.argmin())
    inside = distances <= distances[bottom] + RISE
    first, last = bottom, bottom
    while first > 0 and inside[first - 1]:
        first -= 1
    while last < len(grid) - 1 and inside[last + 1]:
        last += 1
    ends = [crossing(grid, distances, first, -1), crossing(grid, distances, last, 1)]
    values = numpy.array([exact_value(parameter, place) for place in grid])
    return Profile(parameter, values, distances, exact_value(parameter, ends[0]), exact_value(parameter, ends[1]),
                   first > 0 and last < len(grid) - 1)


def crossing(grid: numpy.ndarray, distances: numpy.ndarray, place: int, step: int) -> float:
    """Where the distance crosses the allowed rise between a place and the next one outside, on a straight line."""
    outside = place + step
    if not 0 <= outside < len(grid):
        return float(grid[place])
    level = distances.min() + RISE
    part = (level - distances[place]) / (distances[outside] - distances[place])
    return float(grid[place] + min(max(part, 0.0), 1.0) * (grid[outside] - grid[place]))


def exact_value(parameter: Parameter, place: float) -> float:
    """The value at a place, not rounded to a whole number."""
    if parameter.logarithmic:
        return math.exp(math.log(parameter.low) + place * (math.log(parameter.high) - math.log(parameter.low)))
    return parameter.low + place * (parameter.high - parameter.low)
