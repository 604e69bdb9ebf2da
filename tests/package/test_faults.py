"""What the package says behind a fault line of noc: the file, the key or the line of it, and what fits there."""
from contextlib import chdir
from itertools import product

from support import HEADER, FolderTest
from test_formats import BY_TABLE, FOUR, GOOD, MISTAKES, ROWS

from noc_tools.faults import misfit, sentence
from noc_tools.network import Network
from noc_tools.relation import TABLE_HEADER

# For each mistake of the page a sentence, in the order of MISTAKES, but for those of other commands at its end.
SENTENCES = [
    "the configuration c has 'chanels', and the keys are kind, radix, channels, buffer, classes, rule, cycles",
    "the configuration c is no TOML: Invalid value (at line 6, column 8)",
    "the configuration c is no TOML: Expected '=' after a key in a key/value pair (at line 1, column 6)",
    "the configuration t is no TOML: Expected '=' after a key in a key/value pair (at line 1, column 7)",
    "the configuration nothing cannot be read: No such file or directory",
    "the configuration - cannot be read: No such file or directory",
    "the configuration examples cannot be read: Is a directory",
    'in the configuration c rule = "xy" is not one of dor, dateline, west-first, adaptive, table',
    "in the configuration c channels = 16 is not 1 to 8",
    "in the configuration c radix = [20]: noc takes 2 to 16 for each dimension",
    "in the configuration c the rule dateline is for a torus, and this is a mesh",
    "in the configuration c the rule dateline needs channels in multiples of 2 for 1 classes, not 1",
    "in the configuration c the rule adaptive needs 2 channels for each class on a mesh, not 1 for 1",
    "in the configuration c 3 channels are no multiple of 2 classes, each of which has as many",
    "line 1 of the traffic t is 'source,destination,length,due', and not source,destination,class,length,due",
    "line 1 of the traffic t is 'source,dst,class,length,due', and not source,destination,class,length,due",
    "line 1 of the traffic t is 'source, destination, class, length, due', and not",
    "on line 2 of the traffic t due is '1.5', which is not a whole number",
    "line 3 of the traffic t is 0,16,0,1,0: the nodes are 0 to 15",
    "line 2 of the traffic t is 0,1,1,1,0: the classes are 0 to 0",
    "line 2 of the traffic t is 0,1,0,100,0: a length is 1 to 64",
    "the traffic t has more than 20000 packets",
    "the rule of the configuration c is table: its table is named by --table",
    "on line 2 of the table table out_port is '0', which is not a port: they are +0, -0, local",
    "on line 2 of the table table out_port is 'E', which is not a port: they are +0, -0, local",
    "line 2 of the table table is 0,1,local,0,2,-0,0: it leads to a router that is no nearer to the destination",
    "packets come to where the table table has no row 0,0,local,0,1,PORT,VC",
    "the rule of the configuration c is table: it has no ranks by formula: 'noc-tools ranks' finds some",
    "the rule of the configuration c is dor: it has no ranks by formula",
]
RANKS = "router,port,vc,rank\n"
# A command, a configuration, traffic, rows of a table and a rank file, and what is said behind the line of noc.
MORE = [
    ("run c t", FOUR.replace("cycles = 100\n", ""), GOOD, None, None, "the configuration c has no key 'cycles'"),
    ("run c t", FOUR.replace("channels = 1", 'channels = "one"'), GOOD, None, None,
     'in the configuration c channels = "one" is not an integer'),
    ("run c t", FOUR.replace("[4, 4]", "[2, 2, 2, 2]"), GOOD, None, None, "noc takes 1 to 3 dimensions"),
    ("run c t", FOUR.replace("[4, 4]", "[16, 16, 2]"), GOOD, None, None,
     "in the configuration c radix = [16, 16, 2], which are 512 routers: noc takes at most 256 routers"),
    ("run c t", FOUR.replace("dor", "west-first").replace("mesh", "torus"), GOOD, None, None,
     "the rule west-first is for a mesh of two dimensions, and this is a torus of 2"),
    ("run c t", FOUR, HEADER + "0,1,0,1,0\n5,5,0,1,0\n", None, None,
     "line 3 of the traffic t is 5,5,0,1,0: a packet goes to another node than its own"),
    ("run c t", FOUR, HEADER + "0,1,0,1,0\n\"5\",6,0\n", None, None, "line 3 of the traffic t has 3 fields"),
    ("run c t", FOUR, HEADER + "0,1,0,1,1000001\n", None, None, "a due time is 0 to 1000000"),
    ("run c t", FOUR, GOOD, ROWS, None, "the rule of the configuration c is dor: no table goes with it"),
    ("run c t", BY_TABLE, GOOD, ["0,0,local,0,1,-0,0", *ROWS[1:]], None,
     "line 2 of the table table is 0,0,local,0,1,-0,0: it names a port without a link"),
    ("run c t", BY_TABLE, GOOD, ["0,0,local,0,1,local,0", *ROWS[1:]], None, "it leads out of the network at a router"),
    ("run c t", BY_TABLE, GOOD, [*ROWS, "0,1,-0,0,1,-0,0"], None, "line 6 of the table table is 0,1,-0,0,1,-0,0: it"),
    ("check c", FOUR.replace("[4, 4]", "[3]"), GOOD, None, RANKS + "0,+0,0,2\n1,+0,0,1\n1,-0,0,2\n2,-0,0,1\n",
     "by the rank file ranks packets may go on from rank 2 to rank 1, which is not greater"),
    ("check c", FOUR.replace("[4, 4]", "[2]"), GOOD, None, RANKS + "0,+0,0,1\n", "has no line 1,-0,0,RANK"),
    ("check c", FOUR.replace("[4, 4]", "[2]"), GOOD, None, RANKS + "0,+0,0,1\n0,+0,0,2\n",
     "line 3 of the rank file ranks is 0,+0,0,2: a line before names the same channel"),
    ("check c", FOUR.replace("[4, 4]", "[2]"), GOOD, None, RANKS + "0,-0,0,1\n", "there is no such link channel"),
    ("check c", FOUR.replace("[4, 4]", "[2]"), GOOD, None, RANKS + "0,+0,0,0\n", "a rank is 1 to 1000000"),
]


class Sentences(FolderTest):
    def test_each_mistake_of_the_page(self) -> None:
        """The lines are those that noc gives, as the test of the page shows."""
        for (line, words, text, traffic, rows), said in zip(MISTAKES, SENTENCES):
            with self.subTest(line=line, words=words), chdir(self.folder):
                self.put(c=text, t=traffic, table="\n".join([TABLE_HEADER, *(rows or []), ""]))
                table = ["--table", "table"] if rows else []
                found = sentence(f"fault {line}", [*words.split(), *table]) or ""
                self.assertTrue(found.startswith(said), found)

    def test_other_mistakes(self) -> None:
        """Behind the line that noc gives itself."""
        for words, config, traffic, rows, ranks, said in MORE:
            called = [*words.split(), *(["--table", "table"] if rows else []), *(["--ranks", "ranks"] if ranks else [])]
            with self.subTest(said=said), chdir(self.folder):
                self.put(c=config, t=traffic, table="\n".join([TABLE_HEADER, *(rows or []), ""]), ranks=ranks or "")
                self.assertIn(said, sentence(self.noc(*called).stderr.rstrip("\n"), called) or "")

    def test_each_network_that_does_not_fit(self) -> None:
        """Of 288 those have a sentence, and only those, which noc refuses for their rule, kind, channels or classes."""
        self.put(t=HEADER)
        kinds, rules = ("mesh", "torus"), ("dor", "dateline", "west-first", "adaptive")
        for kind, rule, channels, classes, radix in product(kinds, rules, range(1, 7), (1, 2, 3), ((2,), (2, 2))):
            network = Network(kind, radix, channels, 1, classes, rule, 1)
            self.put(c=network)
            is_refused = self.noc("run", "c", "t").returncode == 4
            self.assertEqual(misfit(network) is not None, is_refused, network)

    def test_commands_say_it_behind_the_line(self) -> None:
        """In their own name; of a file that a command made for itself no name is told."""
        self.put(c=Network("mesh", (4, 4), 3, 2, 2, "dor", 100), t=GOOD)
        ran = self.tool("why", "c", "t", 0)
        told = "in the configuration c 3 channels are no multiple of 2 classes, each of which has as many"
        self.assertEqual((ran.returncode, ran.stderr), (4, f"fault relation 1 WrongShape\nnoc-tools why: {told}\n"))
        ran = self.tool("load", "c", 1, 0.1)
        told = told.replace(" c ", " ")
        self.assertEqual((ran.returncode, ran.stderr), (4, f"fault relation 1 WrongShape\nnoc-tools load: {told}\n"))

    def test_what_cannot_be_told(self) -> None:
        """Another line, a fault without a sentence, a row that is not there, and a file that is gone."""
        self.put(c=FOUR, t=GOOD)
        with chdir(self.folder):
            for line in ("", "noc: what is this?", "fault network 6 Memory", "fault network 2 BadNode row 7"):
                self.assertIsNone(sentence(line, ["run", "c", "t"]))
            self.assertIsNone(sentence("fault network 2 BadNode row 0", ["run", "c", "gone"]))
            self.assertIsNone(sentence("fault config 8 BadValue key channels", []))
