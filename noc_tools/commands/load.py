"""Measures latency against load: how much a network takes.

Near saturation packets wait ever longer, and above it without end. For each LOAD, in flits per node and cycle, there
are packets of LENGTH flits for the network CONFIG as 'noc-tools traffic' makes them, uniform ones where no PATTERN is
named. The packets that are due in the cycles A to B - 1 are measured, and what comes before is the warm-up; without
--window they are those of the middle third of the run, so the network has filled before them and has time to bring
them out. A line of CSV for each load goes to standard output:

    load      as asked for
    ran       the cycles of the run: fewer than those of CONFIG where these would need more packets than noc takes. The
              run ends then before the first cycle whose packets are too many, and the window is the same part of it. A
              line to standard error says of how many runs this is so.
    packets, flits, out, offered, accepted, mean, median, p95, p99, max
              of the measured packets, as 'noc-tools latency --help' says
    steady    yes, or no where 'noc-tools latency' warns, or where a link is asked for more than a flit in a cycle
    queue_mean, .., network_mean, .., hops_mean, .., sources_least, sources_mean, sources_most
              what the latency is made of, and how fair the network is to its nodes
    mean_margin, median_margin, p95_margin, p99_margin
              how well mean and percentiles are known: half the width of the 95 percent interval of confidence; a dash
              where 'noc-tools latency --help' says so
    behind    of how many sources and destinations the packets pile up in the window, beyond chance
    own_time  the cycles that the network takes to forget how it began, by how long packets wait; a window is to be as
              long, and so is the warm-up
    asked     the flits that the packets of the window ask of the busiest link, or port of a node, in a cycle of it, as
              far as no choice of ways avoids that; each carries one in a cycle
    bound, bound_load
              what comes out, and at which load, where the pattern asks the busiest of them for one flit in a cycle: no
              network keeps up with more
    stuck     yes where the run stood still: packets wait for one another in a circle, and nothing moves any more. The
              status is 5 then, and a line to standard error says of how many runs this is so.
    deadlock_free
              whether the network has ranks ('noc-tools ranks --help'), so that this cannot happen. Where it has none, a
              line to standard error says so.

With --runs each load has N runs with other seeds, from --seed on, and one line for all of them. The warm-up of each is
left out. Packets, flits and out add up, all other figures are means over the runs, and max is the greatest; ran is of
the shortest, and steady says what most are. A margin is then that of the runs, by Student's t, from five on. So figures
get sharper where noc ends a run early, since it takes 20,000 packets.

The runs are made side by side, on N processors or all that may be used.

docs/FIGURES.md has the words for loads and for how long a run is, and says how figures are measured.

For example:

    noc-tools load config.toml 4 0.05:0.6:0.05 --pattern transpose > transpose.csv
"""
from argparse import ArgumentParser, Namespace
from collections.abc import Iterable
from dataclasses import replace

from ..arguments import (
    PATTERN_HELP, add, add_config, add_demand, add_jobs, add_length, add_measured, add_table, demand_of, warn,
)
from ..bound import Bound
from ..deadlock import deadlock_told
from ..errors import Refused, refusing
from ..measure import (
    COLUMNS, Experiment, Measurement, check_network, measured_side_by_side, told_of_short_runs,
    told_of_standstill, told_of_warm_up,
)
from ..network import Network
from ..study.plan import load_range
from ..program import DONE, STUCK
from ..several import added
from ..statistics import middle_window, window_within
from ..traffic import PATTERN_NAMES
from ..pool import check_jobs


def add_arguments(parser: ArgumentParser) -> None:
    add_config(parser)
    add_length(parser)
    each = "flits per node and cycle; A:B:STEP stands for the loads from A up to B"
    add(parser, "loads LOAD", each, nargs="+")
    add(parser, "--pattern PATTERN", PATTERN_HELP, choices=PATTERN_NAMES, default="uniform")
    add_demand(parser)
    add_table(parser)
    add_measured(parser, "the middle third")
    add(parser, "--runs N", "runs of each load, with the seeds from --seed on (1)", type=int, default=1)
    add_jobs(parser)


def number(words: str) -> float:
    """A load."""
    with refusing(ValueError, f"a load is a number, not '{words}'"):
        return float(words)


def experiments_of(options: Namespace, loads: Iterable[str], network: Network) -> list[Experiment]:
    """The runs of each load, one load after the other."""
    window = window_within(options.window, network.cycles) if options.window else middle_window(network.cycles)
    demands = [demand_of(options, number(load)) for load in loads]
    for demand in demands:
        demand.check(network)
    seeds = range(options.seed, options.seed + options.runs)
    made = [replace(demand, seed=seed) for demand in demands for seed in seeds]
    return [Experiment(network, demand, window, options.table, options.tolerance) for demand in made]


def told_above(loads: Iterable[str], bound: Bound | None) -> str | None:
    """In words how many loads are above the bound."""
    if bound is None or not any(above := [bound.load < number(load) for load in loads]):
        return None
    link = f": {bound.link} is asked for more than a flit in a cycle" if bound.link else ""
    return f"{above.count(True)} of {len(above)} loads are above the bound of the pattern, {bound.load:.4f}{link}"


def main(options: Namespace) -> int:
    check_jobs(options.jobs)
    if options.runs < 1:
        raise Refused("at least one run is made of each load")
    network = Network.read(options.config)
    loads = [load for words in options.loads for load in (load_range(words) if ":" in words else [words])]
    check_network(network, options.table)
    experiments = [one._replace(known=one.learnt()) for one in experiments_of(options, loads, network)]
    print(",".join(["load", *COLUMNS]), flush=True)
    made: list[Measurement] = []
    # (to its end, where the processes end that make the runs)
    for found in measured_side_by_side(experiments, options.jobs):
        made.append(found)
        if len(made) % options.runs == 0:
            load = loads[len(made) // options.runs - 1]
            print(",".join([load, *added(made[-options.runs:]).words()]), flush=True)
    warn(options, [told_of_short_runs((found.ran, network.cycles) for found in made)])
    pairs = ((one.warm_up(found.ran), one.longest) for one, found in zip(experiments, made))
    warn(options, [told_of_warm_up(pairs), told_above(loads, made[0].known.bound)])
    warn(options, [None if all(found.known.is_free for found in made) else deadlock_told("this network")])
    stuck = [found.is_stuck for found in made]
    warn(options, [told_of_standstill(stuck)])
    return STUCK if any(stuck) else DONE
