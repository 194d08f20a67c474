"""Random task sets, as the field makes them. A seed fixes a set: numbers are drawn by `random()` alone, of a generator of its
own, which gives the same ones in every version of Python."""

import math
import random
from bisect import bisect
from dataclasses import dataclass
from itertools import accumulate

from .fault import Fault

MOST_TRIES = 10_000
MOST_JOBS = 16_384
HEADING = "Task ID,Period,Offset,Jitter,Cost min,Cost max,Deadline"

# "Real World Automotive Benchmarks For Free" (Kramer, Ziegenbein, Hamann, 2015): the percentage of runnables with a period
# of so many milliseconds; the 15 percent that follow the engine's angle are left out
AUTOMOTIVE_MS = {1: 3, 2: 2, 5: 2, 10: 25, 20: 25, 50: 3, 100: 20, 200: 1, 1000: 4}
MICROSECONDS = 1000


@dataclass(frozen=True)
class Task:
    """A row of a tasks file; the deadline is the period."""

    period: int
    jitter: int
    cost_min: int
    cost_max: int


@dataclass(frozen=True)
class Recipe:
    """What all sets of an experiment have in common. Shares are percentages."""

    tasks: int
    periods: str
    cores: int
    jitter: int
    variation: int
    longest: int
    horizon: int
    most_jobs: int


def uunifast(chance, tasks, total):
    """Utilizations of that sum, uniformly over all such vectors (Bini and Buttazzo's UUniFast)."""
    rest, shares = total, []
    for left in range(tasks - 1, 0, -1):
        following = rest * chance.random() ** (1 / left)
        shares.append(rest - following)
        rest = following
    return shares + [rest]


def uunifast_discard(chance, tasks, total):
    """The same over the vectors without a share above 1 (Davis and Burns): others are discarded. Where most would be, it is the
    shares of idle time that are drawn, which comes to the same distribution."""
    mirrored = total > tasks / 2
    for _ in range(MOST_TRIES):
        shares = uunifast(chance, tasks, tasks - total if mirrored else total)
        if max(shares) <= 1:
            return [1 - share for share in shares] if mirrored else shares
    raise Fault(f"no utilizations found of {tasks} tasks with the sum {total:g}")


def bounded(chance, total, most):
    """The same over the vectors with each share within its own bound, which is what Dirichlet-Rescale is for: pairs of shares
    exchange what they have, over and over, by a step that leaves the uniform distribution as it is."""
    shares = [total * each / sum(most) for each in most]
    tasks = len(most)
    for _ in range(20 * tasks * max(1, math.ceil(math.log(tasks + 1)))):
        one, other = int(chance.random() * tasks), int(chance.random() * tasks)
        if one != other:
            both = shares[one] + shares[other]
            low, high = max(0.0, both - most[other]), min(most[one], both)
            shares[one] = low + (high - low) * chance.random()
            shares[other] = both - shares[one]
    return shares


def log_uniform(low, high, grain):
    """Draws periods whose logarithms are uniform, each a multiple of the grain."""

    def draw(chance):
        period = math.exp(math.log(low) + (math.log(high + grain) - math.log(low)) * chance.random())
        return min(high, max(low, int(period // grain) * grain))

    return draw


def automotive(chance):
    """Draws a period in microseconds, by the shares of the benchmark."""
    sums = list(accumulate(AUTOMOTIVE_MS.values()))
    return list(AUTOMOTIVE_MS)[bisect(sums, chance.random() * sums[-1])] * MICROSECONDS


def period_source(text):
    """`automotive`, or `LOW:HIGH:GRAIN` for log-uniform ones."""
    if text == "automotive":
        return automotive
    try:
        low, high, grain = (int(part) for part in text.split(":"))
    except ValueError as error:
        raise Fault(f"periods {text!r} are neither automotive nor LOW:HIGH:GRAIN") from error
    if not 0 < grain <= low <= high or low % grain or high % grain:
        raise Fault(f"periods {text!r}: LOW and HIGH are multiples of GRAIN, and LOW is not above HIGH")
    return log_uniform(low, high, grain)


def horizon_of(recipe, periods):
    """Until when jobs are released: a number, or the hyperperiod where it is 0."""
    return recipe.horizon or math.lcm(*periods)


def job_count(periods, horizon):
    return sum(-(-horizon // period) for period in periods)


def greatest_shares(recipe, periods):
    """The utilization that each task may have."""
    return [min(1.0, recipe.longest / period) if recipe.longest else 1.0 for period in periods]


def draw_periods(recipe, chance, total):
    """Rising periods with not too many jobs until the horizon, and room for that utilization; others are discarded."""
    draw = period_source(recipe.periods)
    for _ in range(MOST_TRIES):
        periods = sorted(draw(chance) for _ in range(recipe.tasks))
        fits = job_count(periods, horizon_of(recipe, periods)) <= recipe.most_jobs
        if fits and sum(greatest_shares(recipe, periods)) >= total:
            return periods
    raise Fault(
        f"no periods found with at most {recipe.most_jobs} jobs and room for a utilization of {total:g}: "
        "see --most-jobs, --horizon, --periods and --longest"
    )


def draw_set(recipe, utilization, seed):
    """The set of a seed: the same at any time and on any machine. The utilization is a share of all cores together."""
    chance = random.Random(seed)
    total = utilization * recipe.cores
    periods = draw_periods(recipe, chance, total)
    if recipe.longest:
        shares = bounded(chance, total, greatest_shares(recipe, periods))
    else:
        shares = uunifast_discard(chance, recipe.tasks, total)
    return [task_of(recipe, period, share) for period, share in zip(periods, shares)]


def task_of(recipe, period, share):
    """A task of that utilization, as far as whole numbers allow."""
    cost = min(period, max(1, round(share * period)))
    least = max(1, cost - cost * recipe.variation // 100)
    return Task(period, period * recipe.jitter // 100, least, cost)


def utilization_of(tasks, cores):
    """What the set comes to, as a share of all cores together."""
    return sum(task.cost_max / task.period for task in tasks) / cores


def tasks_text(tasks):
    """The tasks file."""
    rows = [
        f"{number},{task.period},0,{task.jitter},{task.cost_min},{task.cost_max},{task.period}"
        for number, task in enumerate(tasks, start=1)
    ]
    return "\n".join([HEADING, *rows]) + "\n"
