"""What 'why' tells of a packet, worked out by hand from docs/MODEL.md; and on made networks, what its steps and lives
say beside the reports of the program."""
from collections import Counter
from collections.abc import Callable, Iterable
from dataclasses import replace
from unittest.mock import patch

from support import HEADER, IN_THE_WAY, LINE, TOP, FolderTest, made_networks

from noc_tools import runs
from noc_tools.commands import why
from noc_tools.findings import NO_CREDIT, NO_IDLE_CHANNEL, Finding
from noc_tools.life import QUEUE, Bar, Life, Stay, Wait, holders_at, life_of, longest_waits
from noc_tools.network import Network
from noc_tools.rules import RULES
from noc_tools.runs import Run
from noc_tools.waiting import Snapshot, waiting_lines


class Why(FolderTest):
    def assertTells(self, words: Iterable[object], lines: list[str]) -> None:
        """The command prints these lines."""
        self.assertEqual(self.said("why", "c", "t", *words).splitlines(), lines)


class Steps(Why):
    def test_a_channel_that_drains(self) -> None:
        """Packet 1 moved on in cycle 2, and its flit leaves router 2 in cycle 5; packet 0 came to router 1 in 3."""
        self.assertTells([0, 5], [
            "packet 0, router 1, -0.0: NoIdleChannel. It needs +0.0, which drains: "
            "the end of packet 1 is still at router 2.",
            "packet 1, router 2, -0.0: Moved. A flit leaves the network by local.0 in this cycle, "
            "and its credit goes back to router 1.",
            "So packet 0 waits for packet 1, which goes on.",
        ])

    def test_the_queue(self) -> None:
        """Packet 0 has the injection channel in cycles 0 to 2, so packet 2 comes in in cycle 3."""
        self.assertTells([2, 0], [
            "packet 2, the queue of node 0: it needs a channel of the port local, and packet 0 has local.0.",
            "packet 0, router 0, local.0: Routed. Its head is routed in this cycle.",
            "So packet 2 waits for packet 0, which goes on.",
        ])
        self.assertTells([2, 2], ["packet 2, the queue of node 0: it comes in in the next cycle."])

    def test_who_comes_in_first(self) -> None:
        """Packet 1 is due before packet 0. Its four flits come in in cycles 0, 1, 3 and 4, since the buffer has two
        places, and it leaves local.0 in 7. Packet 0 comes in from cycle 5 on by local.1. One channel is left, but
        packet 2 has to wait for its tail.

        Flits of packet 0 come in in cycles 5 and 6, and in 9 and 10: in 7 the tail of packet 1 is picked at the port
        local, so its head leaves in 8. Packet 2 comes in in 11."""
        self.put(c=replace(LINE, channels=3), t=HEADER + "0,2,0,4,1\n0,2,0,4,0\n0,2,0,1,2\n")
        self.assertTells([2, 6], [
            "packet 2, the queue of node 0: packet 0 comes in first.",
            "packet 0, router 0, local.1: Granted. It gets +0.1 in this cycle.",
            "So packet 2 waits for packet 0, which goes on.",
        ])
        line = "9 cycles in the queue of node 0 (2 to 10): packet 0 came in first in 6, packet 1 came in first in 3."
        self.assertIn(line, self.said("why", "c", "t", 2).splitlines())

    def test_what_is_no_wait(self) -> None:
        """Packet 1 is due in cycle 2, before packet 0 comes to its router, and takes five cycles over one hop."""
        self.put(t=IN_THE_WAY.replace("1,2,0,1,0", "1,2,0,1,2"))
        self.assertTells([1, 1], ["Packet 1 is due in cycle 2."])
        self.assertTells([1, 2], ["packet 1, router 1, local.0: Routed. Its head is routed in this cycle."])
        self.assertTells([1, 8], ["Packet 1 was out in cycle 7."])

    def test_the_head_comes_first(self) -> None:
        """Packet 2 is at routers 0 to 2 in cycle 13, where its head is routed, as its life says by hand below."""
        self.assertTells([2, 13], ["packet 2, router 2, -0.0: Routed. Its head is routed in this cycle."])

    def test_a_credit_goes_back_to_another_router(self) -> None:
        """As in `test_who_won`: at router 2 packet 1 is picked in cycle 9, and packet 0 in 10."""
        self.put(c=replace(LINE, channels=2, buffer=4), t=HEADER + "0,2,0,4,0\n1,2,0,4,3\n")
        self.assertTells([1, 10], [
            "packet 1, router 2, -0.1: LostInput. It has local.1, and -0.0 of the same port was picked, with packet 0.",
            "packet 0, router 2, -0.0: Moved. A flit leaves the network by local.0 in this cycle.",
            "So packet 1 waits for packet 0, which goes on.",
        ])

    def test_who_waits_for_a_circle_is_not_of_it(self) -> None:
        """In the ring each packet has the channel of the one before it, and packet 4 is in the queue of the first."""
        ring = (TOP / "examples/ring.csv").read_text()
        self.put(c=(TOP / "examples/ring.toml").read_text(), t=ring + "0,2,0,4,0\n")
        said = self.said("why", "c", "t", 4, 50).splitlines()
        self.assertTrue(said[0].endswith("it needs a channel of the port local, and packet 0 has local.0."), said)
        self.assertEqual(said[-1], "So these packets wait for one another: 0, 1, 2, 3.")

    def test_a_configuration_is_read_as_the_program_does(self) -> None:
        """With a byte order mark, and with an escape of TOML 1.1."""
        self.put(c="\ufeff" + LINE.text().replace("mesh", "\\x6desh"))
        self.assertTrue(self.said("why", "c", "t", 1, 5).startswith("packet 1, router 2, -0.0: Moved."))


class Lives(Why):
    def test_a_life_that_is_cut_off(self) -> None:
        """In cycle 16 two of the three flits of packet 2 are out."""
        self.put(c=replace(LINE, cycles=17))
        title = "packet 2, node 0 to node 2, 3 flits: due in cycle 0, not out in cycle 16, the last."
        self.assertEqual(self.said("why", "c", "t", 2).splitlines()[0], title)

    def test_a_stay_has_a_first_and_a_last_cycle(self) -> None:
        stay = Stay(0, "local.0", [Bar(3, 5, "Routed"), Bar(5, 6, "Moved")])
        self.assertEqual([stay.bar_at(cycle) for cycle in range(2, 7)], [
            None, (3, 5, "Routed"), (3, 5, "Routed"), (5, 6, "Moved"), None,
        ])

    def test_a_life(self) -> None:
        """Packet 2 comes in in cycle 3, behind packet 0, and waits from 4 to 7 for channel +0.0 of router 0: packet 0
        left by it in cycle 2, stands in router 1 until 7, and its credit is back in 8. In cycles 11 and 12 two flits of
        packet 2 fill the buffer of router 1, so its third one has no credit; in 14 and 15 they fill that of router 2.
        """
        self.assertTells([2], [
            "packet 2, node 0 to node 2, 3 flits: due in cycle 0, out in cycle 17.",
            "queue of node 0, cycles 0 to 2.",
            "router 0, local.0, cycles 3 to 13: NoIdleChannel 4, Moved 3, NoCredit 2, Routed 1, Granted 1.",
            "router 1, -0.0, cycles 10 to 16: Moved 3, NoCredit 2, Routed 1, Granted 1.",
            "router 2, -0.0, cycles 13 to 17: Moved 3, Routed 1, Granted 1.",
            "Where its 18 cycles went: Moved 5, NoIdleChannel 4, queue 3, Routed 3, Granted 3.",
            "4 cycles of NoIdleChannel at router 0, local.0 (4 to 7): packet 0 drained from +0.0 in 4.",
            "3 cycles in the queue of node 0 (0 to 2): packet 0 had local.0 in 3.",
        ])

    def test_who_won(self) -> None:
        """Two packets of four flits meet at router 1, with two channels and four places. Packet 0 comes by -0 and is
        granted +0.0 in cycle 4, since the pointer is at 0; packet 1 asked for it too, and gets +0.1 in 5. Packet 0
        moves in 5, and from 6 on they take turns, beginning with packet 1. Both then come to router 2 by port -0, where
        they take turns from cycle 9 on, again with packet 1 first, since packet 0 was picked alone in 8."""
        self.put(c=replace(LINE, channels=2, buffer=4), t=HEADER + "0,2,0,4,0\n1,2,0,4,3\n")
        self.assertTells([1], [
            "packet 1, node 1 to node 2, 4 flits: due in cycle 3, out in cycle 15.",
            "router 1, local.0, cycles 3 to 12: Moved 4, LostSwitch 3, Routed 1, LostChannel 1, Granted 1.",
            "router 2, -0.1, cycles 7 to 15: Moved 4, LostInput 3, Routed 1, Granted 1.",
            "Where its 13 cycles went: Moved 5, LostInput 3, Routed 2, Granted 2, LostChannel 1.",
            "3 cycles of LostInput at router 2, -0.1 (10 to 14): packet 0 was picked at -0 in 3.",
            "1 cycle of LostChannel at router 1, local.0 (4): packet 0 got +0.0 in 1.",
        ])

    def test_a_shared_link(self) -> None:
        """Two packets of 64 flits share the link from router 1 to router 2. Packet 1 has moved three flits when packet
        0 comes, and from then on they take turns. At router 2 packet 0 is picked in cycles 8, 10, .., 130, and packet 1
        in 9, 11, .., 129. Then packet 0 is alone: flits 61 and 63 leave router 2 in cycles 130 and 132. Flit 61 leaves
        router 3 in 131, and flits 61 to 63 leave router 4 in 132 to 134. Up to router 2 the head takes three cycles a
        hop."""
        self.put(c=Network("mesh", (5, 2), 2, 8, 1, "dor", 400), t=HEADER + "0,4,0,64,0\n1,7,0,64,0\n")
        self.assertEqual(self.said("why", "c", "t", 0).splitlines()[-2:], [
            "Where its 135 cycles went: Moved 68, LostInput 61, Routed 3, Granted 3.",
            "61 cycles of LostInput at router 2, -0.1 (9 to 129): packet 1 was picked at -0 in 61.",
        ])

    def test_a_buffer_too_small(self) -> None:
        """With one place in each buffer flits leave router 0 in the cycles 2, 6, 8 and 10, and router 1 in 5, 7, 9 and
        11. In 5, 7 and 9 the next flit has no credit at router 0, since the one before it leaves router 1 just then. In
        3 and 4 it has none either, while the head is routed and granted its channel at router 1."""
        self.put(c=replace(LINE, buffer=1), t=HEADER + "0,1,0,4,0\n")
        self.assertEqual(self.said("why", "c", "t", 0).splitlines()[-2:], [
            "Where its 12 cycles went: Moved 5, NoCredit 3, Routed 2, Granted 2.",
            "3 cycles of NoCredit at router 0, local.0 (5 to 9): packet 0 filled the next buffer in 3.",
        ])

    def test_a_life_without_an_end(self) -> None:
        """Each head of the ring moves in cycle 2, is routed in the next router in 3, and waits for a channel of the
        packet there."""
        self.assertEqual(self.said("why", "examples/ring.toml", "examples/ring.csv", 0).splitlines(), [
            "packet 0, node 0 to node 2, 4 flits: due in cycle 0, not out in cycle 59, the last.",
            "router 0, local.0, cycles 0 to 59: NoCredit 57, Routed 1, Granted 1, Moved 1.",
            "router 1, -0.0, cycles 3 to 59: NoIdleChannel 56, Routed 1.",
            "Where its 60 cycles went: NoIdleChannel 56, Routed 2, Granted 1, Moved 1.",
            "56 cycles of NoIdleChannel at router 1, -0.0 (4 to 59): packet 1 had +0.0 in 56.",
        ])

    def test_a_run_that_is_stuck_ends_where_nothing_changes(self) -> None:
        """All four packets of the ring are routed in cycle 3, and wait from 4 on. The limit of a run that drains is
        152."""
        whole, drained = (self.said("why", "examples/ring.toml", "examples/ring.csv", 0, *words)
                          for words in ((), ("--drain",)))
        self.assertEqual(drained, whole)
        short = self.said("keys", "examples/ring.toml", "cycles=2")
        shorter = self.said("why", "-", "examples/ring.csv", 0, "--drain", given=short)
        last = "1 cycle of NoIdleChannel at router 1, -0.0 (4): packet 1 had +0.0 in 1."
        self.assertEqual(shorter.splitlines()[-1], last)


class OnMadeNetworks(FolderTest):
    def each_run(self, count: int, look_at: Callable[[Run], None]) -> None:
        """Looks at runs of made networks."""
        for network, traffic in made_networks(count):
            self.put(c=network, t=traffic)
            with self.subTest(network=network):
                look_at(Run(self.folder / "c", self.folder / "t"))

    def each_life(self, count: int, look_at: Callable[[Run, Life], None]) -> None:
        """Looks at the lives of all packets of such runs."""
        def lives(run: Run) -> None:
            for number in range(len(run.rows)):
                with self.subTest(packet=number):
                    look_at(run, life_of(run, number))

        self.each_run(count, lives)

    def of_the_rule(self, run: Run, finding: Finding) -> set[str]:
        """The channels that the rule permits the packet of a finding."""
        network, packet = run.network, run.packet(finding.packet)
        if finding.router == packet.destination:
            return {f"local.{number}" for number in network.block(packet.message_class)}
        ways = RULES[network.rule](network, packet.message_class, finding.router, packet.destination)
        return {f"{port}.{number}" for port, number in ways}

    def test_what_is_permitted_is_that_of_the_rule(self) -> None:
        """Every channel that a packet has, gets, loses or waits for."""
        def look_at(run: Run) -> None:
            for finding in run.trace():
                if finding.out != "-":
                    self.assertIn(finding.out, self.of_the_rule(run, finding), finding)
                if finding.verdict in ("NoIdleChannel", "LostChannel", "Granted"):
                    self.assertEqual(set(finding.permitted), self.of_the_rule(run, finding), finding)

        self.each_run(6, look_at)

    def test_all_steps_end(self) -> None:
        """What is permitted and not idle has a packet."""
        def look_at(run: Run) -> None:
            for snapshot in (Snapshot(run, cycle) for cycle in (7, 19, 33)):
                for number in range(len(run.rows)):
                    self.assertTrue(waiting_lines(snapshot, run.packet(number)))

        self.each_run(6, look_at)

    def test_lives_agree_with_the_program(self) -> None:
        """Hop by hop from source to destination, all flits at each router, and the last one out in the cycle of the
        latency report."""
        def look_at(run: Run, life: Life) -> None:
            packet, stays = life.packet, [stay for stay in life.stays if stay.channel != QUEUE]
            hops = [run.network.distance(one.router, other.router) for one, other in zip(stays, stays[1:])]
            self.assertLessEqual(set(hops), {1})
            self.assertEqual(life.out, run.packets[packet.number].out)
            if life.out is not None:
                ends = stays[0].router, stays[-1].router, stays[-1].end - 1
                self.assertEqual(ends, (packet.source, packet.destination, life.out))
                self.assertEqual({stay.counts()["Moved"] for stay in stays}, {packet.length})

        self.each_life(3, look_at)

    def test_each_cycle_of_a_life_counts_once(self) -> None:
        """No more count as Moved than an unhindered packet has, and as NoCredit only those in which the next channel
        moved a flit."""
        def look_at(run: Run, life: Life) -> None:
            packet, charged = life.packet, life.charged()
            end = run.network.cycles if life.out is None else life.out + 1
            self.assertEqual(len(charged), end - packet.due)
            counts = Counter(bar.verdict for _, bar in charged)
            hops = run.network.distance(packet.source, packet.destination)
            self.assertLessEqual(counts["Moved"], hops + packet.length)
            self.assertEqual(counts["NoFlit"], 0)
            for cycle, (stay, bar) in enumerate(charged, packet.due):
                if bar.verdict == NO_CREDIT:
                    ahead = life.stays[life.stays.index(stay) + 1]
                    self.assertEqual(ahead.bar_at(cycle).verdict, "Moved")

        self.each_life(4, look_at)

    def test_waits_have_holders(self) -> None:
        """In a cycle of a wait one packet wins what is lost, each channel of the set has a holder, and of the channels
        of the port local each has one, or some are left and one packet comes in. What was before the wait changes
        nothing. It is told of three waits at most."""
        def look_at(run: Run, life: Life) -> None:
            self.assertLessEqual(len(longest_waits(life)), 3)
            for wait in longest_waits(life):
                self.look_at_holders(run, life.packet.number, wait)

        self.each_life(4, look_at)

    def look_at_holders(self, run: Run, number: int, wait: Wait) -> None:
        """One wait of a packet."""
        chosen = {"router": wait.router, "last": wait.cycles[-1], "changes": True}
        ((_, held),) = holders_at(run, run.trace(**chosen), [wait])
        late = holders_at(run, run.trace(first=wait.cycles[0], **chosen), [wait])
        self.assertEqual(late, [(wait, held)])
        self.assertEqual(number in {packet for packet, _ in held}, wait.verdict == NO_CREDIT)
        if wait.verdict == NO_IDLE_CHANNEL:
            found = run.trace(packet=number, router=wait.router)
            (permitted,) = {row.permitted for row in found if row.verdict == NO_IDLE_CHANNEL}
            self.assertEqual(held.total(), len(permitted) * len(wait.cycles))
        elif wait.verdict != QUEUE:
            self.assertEqual(held.total(), len(wait.cycles))

    def test_a_trace_in_parts_says_the_same(self) -> None:
        """A long trace is made by several processes; a long run that tells whether a packet is out begins at once."""
        def look_at(run: Run) -> None:
            with patch.object(runs, "LONG", 1), run.parallel_trace(0, 39, 3, changes=True) as trace:
                self.assertEqual(sorted(trace.changes(), key=str), sorted(run.trace(changes=True), key=str))
            run.free = 6
            for number in range(len(run.rows)):
                said = []
                for long in (runs.LONG, 1):
                    with patch.object(runs, "LONG", long):
                        cycle = why.cycle_lines(run, run.packet(number), 39)
                        said.append([*why.life_lines(run, number), *cycle])
                self.assertEqual(*said)

        self.each_run(2, look_at)
