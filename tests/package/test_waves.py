"""The VCD files of 'waves', read back: by hand from docs/MODEL.md, and beside the program."""
from support import FolderTest, made_networks

# What the channel -0.0 of router 1 says, where the packets of IN_THE_WAY come by: from a cycle on, with packet, out and
# permitted.
AT_ROUTER_1 = [
    (3, "Routed", 0, "-", "-"), (4, "NoIdleChannel", 0, "-", "+0.0"), (6, "Granted", 0, "+0.0", "+0.0"),
    (7, "Moved", 0, "+0.0", "-"), (8, "Empty", None, "-", "-"), (10, "Routed", 2, "-", "-"),
    (11, "Granted", 2, "+0.0", "+0.0"), (12, "Moved", 2, "+0.0", "-"), (14, "NoCredit", 2, "+0.0", "-"),
    (16, "Moved", 2, "+0.0", "-"), (17, "Empty", None, "-", "-"),
]
# What a viewer is to show of router 0 of that line: a group for the router, and in it one for each port.
SHOWN = """\
[timestart] 0
@800200
-router 0
@800200
-+0
@28
noc.router_0.plus_0.plus_0_verdict_0
@420
noc.router_0.plus_0.plus_0_packet_0
@28
noc.router_0.plus_0.plus_0_out_0
@1000200
-+0
@800200
-local
@28
noc.router_0.local.local_verdict_0
@420
noc.router_0.local.local_packet_0
@28
noc.router_0.local.local_out_0
@1000200
-local
@1000200
-router 0
"""


class Dump:
    """A VCD file, read back: the values of each variable, by the names of its scopes and its own."""

    def __init__(self, text: str) -> None:
        head, _, body = text.partition("$enddefinitions $end\n")
        self.changes: dict[str, list[tuple[int, int | str | None]]] = {}
        self.times, signs, scopes = [], {}, []
        for words in map(str.split, head.splitlines()):
            if words[0] == "$scope":
                scopes.append(words[2])
            elif words[0] == "$upscope":
                scopes.pop()
            elif words[0] == "$var":
                signs[words[3]] = ".".join([*scopes, words[4]])
                self.changes[signs[words[3]]] = []
        self.is_whole = not scopes and len(signs) == len(self.changes)
        for line in body.splitlines():
            if line.startswith("#"):
                self.times.append(int(line[1:]))
            elif not line.startswith("$"):
                value, sign = line.split(" ")
                said: int | str | None = value[1:] if value[0] == "s" else number_of(value)
                self.changes[signs[sign]].append((self.times[-1], said))

    def at(self, name: str, time: int) -> int | str | None:
        """The value of a variable at a time."""
        return [value for since, value in self.changes[name] if since <= time][-1]


def number_of(value: str) -> int | None:
    """A number of VCD, or None."""
    return None if value == "bz" else int(value[1:], 2)


def found_by_explain(test: FolderTest, cycle: int, router: int) -> dict[str, tuple[str, str, str]]:
    """What the program says of each channel of a router: its name with verdict, packet and output channel."""
    rows = test.report("explain", "c", "t", "--cycle", cycle, "--router", router)
    return {f"{row['port']}.{row['vc']}": (row["verdict"], row["packet"], row["out"]) for row in rows}


class Waves(FolderTest):
    def dump(self, *words: object) -> Dump:
        """The waves of the line, or of what stands in its place."""
        return Dump(self.said("waves", "c", "t", *words))

    def test_a_router_is_read_back(self) -> None:
        """Each value once, from the first cycle on, and only where it changes; port +0 of router 1 stays empty."""
        dump = self.dump("--router", 1)
        verdicts = [(0, "Empty")] + [(cycle, verdict) for cycle, verdict, *_ in AT_ROUTER_1]
        self.assertTrue(dump.is_whole)
        self.assertEqual((dump.times[0], dump.times[-1]), (0, 20))
        self.assertEqual(dump.changes, {
            "noc.router_1.plus_0.plus_0_verdict_0": [(0, "Empty")],
            "noc.router_1.plus_0.plus_0_packet_0": [(0, None)],
            "noc.router_1.plus_0.plus_0_out_0": [(0, "-")],
            "noc.router_1.minus_0.minus_0_verdict_0": verdicts,
            "noc.router_1.minus_0.minus_0_packet_0": [(0, None), (3, 0), (8, None), (10, 2), (17, None)],
            "noc.router_1.minus_0.minus_0_out_0": [(0, "-"), (6, "+0.0"), (8, "-"), (11, "+0.0"), (17, "-")],
            "noc.router_1.local.local_verdict_0": [(0, "Routed"), (1, "Granted"), (2, "Moved"), (3, "Empty")],
            "noc.router_1.local.local_packet_0": [(0, 1), (3, None)],
            "noc.router_1.local.local_out_0": [(0, "-"), (1, "+0.0"), (3, "-")],
        })

    def test_a_span_says_all_at_its_start(self) -> None:
        dump = self.dump("--from", 5, "--to", 7)
        values = [dump.changes[name] for name in dump.changes if name.startswith("noc.router_1.minus_0")]
        self.assertEqual(dump.times, [5, 6, 7, 8])
        verdicts = [(5, "NoIdleChannel"), (6, "Granted"), (7, "Moved")]
        self.assertEqual(values, [verdicts, [(5, 0)], [(5, "-"), (6, "+0.0")]])

    def test_all_channels_agree_with_the_program(self) -> None:
        """On made networks, in some cycles, all channels of all routers."""
        for network, traffic in made_networks(4):
            self.put(c=network, t=traffic)
            dump = self.dump()
            for router, cycle in [(router, cycle) for router in range(network.nodes) for cycle in (0, 7, 19, 33, 39)]:
                for channel, found in found_by_explain(self, cycle, router).items():
                    port, number = channel.replace("+", "plus_").replace("-", "minus_").split(".")
                    scope = f"noc.router_{router}.{port}.{port}"
                    holder = dump.at(f"{scope}_packet_{number}", cycle)
                    verdict, out = (dump.at(f"{scope}_{said}_{number}", cycle) for said in ("verdict", "out"))
                    said = verdict, "-" if holder is None else str(holder), out
                    self.assertEqual(said, found, (network, cycle, scope))

    def test_no_input_is_written_over(self) -> None:
        """Nor is a file that is none for a viewer."""
        self.put(mine="my notes\n")
        self.assertEachRefused([
            ("waves c t --gtkw t", "t is an input: name another file"),
            ("waves c t --gtkw mine", "mine is there, and is none of those that are written here: name another file"),
        ])
        self.assertEqual((self.folder / "mine").read_text(), "my notes\n")

    def test_a_viewer_is_told_which_signals_to_show(self) -> None:
        """A line for each variable of the file, behind how it is shown, in a group for each port and router; those of
        several routers are closed. What the file shows is in the waves, which are the same ones."""
        waves = self.said("waves", "c", "t", "--from", 3)
        self.assertEqual(self.said("waves", "c", "t", "--from", 3, "--gtkw", "all.gtkw"), waves)
        lines = (self.folder / "all.gtkw").read_text().splitlines()
        signals = [line for line in lines if line.startswith("noc.")]
        self.assertEqual(sorted(signals), sorted(Dump(waves).changes))
        self.assertEqual([lines.count(begin) for begin in ("@c00200", "@1401200", "@800200", "@1000200")], [3, 3, 7, 7])
        self.said("waves", "c", "t", "--router", 0, "--gtkw", "one.gtkw")
        self.assertEqual((self.folder / "one.gtkw").read_text(), SHOWN)
        for name, sentence in [
            ("nowhere/one.gtkw", "nowhere/one.gtkw: No such file or directory"), ("c", "c is an input"),
            ("noc-tools", "noc-tools is there, and is none of those that are written here"),
        ]:
            self.assertRefused(self.tool("waves", "c", "t", "--gtkw", name), sentence, "waves")
        self.assertEqual(self.tool("waves", "c", "t", "--gtkw", "one.gtkw").returncode, 0)
