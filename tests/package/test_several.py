"""Several runs of one load as one measurement."""
import csv
import unittest
from dataclasses import replace

from support import SQUARE, FolderTest

from noc_tools.measure import Known, Measurement
from noc_tools.network import Network
from noc_tools.several import added
from noc_tools.statistics import Columns, Sample, Window
from noc_tools.traffic import Packet

PAIR = Network("mesh", (2,), 1, 1, 1, "dor", 200)


def measured(latency: int, is_steady: bool = True, count: int = 100) -> Measurement:
    """A run of packets that take so many cycles."""
    packets = [Packet(n, 0, 1, 0, 1, n, n + latency) for n in range(count)]
    figures = Sample(Columns.of_packets(packets), Window(0, 200)).figures(PAIR, 2)
    return Measurement(200, figures, is_steady, False, 0, 10.0, 0.5, Known(True, None))


class Added(unittest.TestCase):
    def test_counts_add_up_and_figures_are_means(self) -> None:
        """Latencies of 10, 20 and 60 cycles, of a hundred packets each."""
        found = added([measured(latency) for latency in (10, 20, 60)]).figures
        self.assertEqual((found.packets, found.flits, found.out), (300, 300, 300))
        self.assertEqual(found.offered, 100 / 400)
        self.assertEqual(found.latency, (30, 30, 30, 30, 60))

    def test_margins_are_of_runs_from_five_on(self) -> None:
        """The runs' own margins are 0, as all packets of a run take as long. Of five means 6, 8,
        .. 14 the variance is 10, so the margin is 2.776 times the root of 2."""
        for count, expected in (1, 0), (4, 0), (5, 2.776 * 2 ** 0.5):
            found = added([measured(6 + 2 * number) for number in range(count)]).figures.margins
            self.assertAlmostEqual(found.mean, expected)
            self.assertAlmostEqual(found.p99, expected)

    def test_what_one_run_does_not_know_is_not_known(self) -> None:
        """99 packets have no margin, and of two runs of which one has no margin neither have
        both."""
        found = added([measured(10), measured(10, count=99)])
        self.assertIsNone(found.figures.margins.mean)
        self.assertEqual(found.figures.latency.mean, 10)

    def test_most_runs_decide_what_is_steady(self) -> None:
        flags = [[True, True, False], [True, False], [False]]
        found = [added([measured(10, flag) for flag in some]).is_steady for some in flags]
        self.assertEqual(found, [True, False, False])


class Loads(FolderTest):
    FILES = {"c": replace(SQUARE, cycles=300)}

    def test_a_load_has_several_runs(self) -> None:
        """One line for three runs, whose packets are those of the runs with these seeds."""
        def rows(*words: object) -> list[dict[str, str]]:
            return list(csv.DictReader(self.said("load", "c", 4, 0.02, 0.05, *words).splitlines()))

        alone = [rows("--seed", seed) for seed in (5, 6, 7)]
        together = rows("--seed", 5, "--runs", 3)
        self.assertEqual([row["load"] for row in together], ["0.02", "0.05"])
        for number, row in enumerate(together):
            some = [one[number] for one in alone]
            self.assertEqual(int(row["packets"]), sum(int(one["packets"]) for one in some))
            mean = sum(float(one["mean"]) for one in some) / 3
            self.assertAlmostEqual(float(row["mean"]), mean, delta=0.1)
            self.assertEqual(int(row["max"]), max(int(one["max"]) for one in some))
        refused = self.tool("load", "c", 4, 0.05, "--runs", 0)
        self.assertRefused(refused, "at least one run is made of each load", "load")
