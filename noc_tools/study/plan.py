"""The file of a study: the runs that its settings name, the load that it searches, and how it is shown."""
import hashlib
import tomllib
from collections.abc import Iterable, Mapping
from dataclasses import dataclass, replace
from decimal import Decimal
from functools import cached_property
from itertools import product
from pathlib import Path
from typing import Any, NamedTuple

from ..errors import Refused, refusing
from ..files import read_text
from ..measure import Experiment, Known
from ..network import Network
from ..program import DIGITS, digest
from ..ranks import checked_table
from ..replies import Levels, Replies
from ..rules import TABLE_RULES
from ..statistics import TOLERANCE, TOO_MUCH, Window, middle_window
from ..traffic import HOT_SPOT, SHARE, Demand, Played, lengths_in
from ..units import BYTES, FLITS, PAYLOAD, Unit, checked, flits_of

# What is between the numbers of a setting that has several.
SEPARATORS = {
    "radix": "x", "spots": "+", "packet_classes": "+", "packet_bytes": "+", "measured_classes": "+", "burst": ":",
    "replies": ":", "window": ":",
}
# Of these a study may name files beside it; a run is known by what is in them.
PATHS = ["table", "traffic"]
WORDS = ["kind", "rule", "pattern", "unit", *PATHS]
AMOUNTS = ["load", "share", "tolerance"]
# Of these a packet has one, as a text such as "1+8" says.
SEVERAL = ["length", "packet_bytes"]
SETTINGS = [
    "kind", "radix", "rule", "table", "channels", "buffer", "classes", "flit_bytes", "unit", "traffic", "pattern",
    "spots", "share", "burst", "packet_classes", "packet_bytes", "length", "replies", "cycles", "window",
    "measured_classes", "parts", "tolerance", "load", "seed",
]
# What says nothing of a traffic that is a file.
OF_DEMANDS = ["pattern", "spots", "share", "burst", "packet_classes", "packet_bytes", "length", "seed"]
# For which runs a setting is that does not go with all.
MEANT = {
    **dict.fromkeys(OF_DEMANDS, "runs whose traffic is no file"), "table": "the rule 'table'",
    "spots": "the pattern 'hot-spot'", "share": "the pattern 'hot-spot'",
}
NONE = "-"
LOAD, SEED = "load", "seed"
# The most loads of a range.
MOST_LOADS = 1000
BY_DEFAULT = {
    "table": NONE, "classes": "1", "flit_bytes": NONE, "traffic": NONE, "pattern": "uniform", "spots": NONE,
    "share": f"{SHARE:g}", "burst": NONE, "packet_classes": "0", "packet_bytes": NONE, "replies": NONE,
    "cycles": "3000", "window": NONE, "measured_classes": NONE, "parts": "no", "tolerance": f"{TOLERANCE:g}",
    "seed": "1",
}
# How a run is named by its settings: by the value alone, or by how many there are of what; else by the setting and its
# value.
BY_VALUE = ["kind", "radix", "rule", "pattern", "traffic"]
COUNTED = {
    "channels": ("channel", "channels"), "buffer": ("slot", "slots"), "length": ("flit", "flits"),
    "classes": ("class", "classes"), "cycles": ("cycle", "cycles"),
    "flit_bytes": ("byte for a flit", "bytes for a flit"), "packet_bytes": ("byte", "bytes"),
}


def number_word(key: str, value: Any) -> str:
    """One number of a setting as a word."""
    if key in AMOUNTS:
        if type(value) in (int, float) and 0 <= value < float("inf"):
            return f"{value:.12g}"
        raise Refused(f"'{key}' is a number of 0 or more, not {value!r}")
    least = 0 if key in ("seed", "spots", "packet_classes", "measured_classes", "replies", "window") else 1
    if type(value) is not int or value < least:
        raise Refused(f"'{key}' is a whole number of {least} or more, not {value!r}")
    return str(value)


def word_of(key: str, value: Any) -> str:
    """A value of a setting as a word."""
    if key in WORDS:
        if not isinstance(value, str) or not value or not value.isprintable():
            raise Refused(f"'{key}' is a text, not {value!r}")
        return value
    if key == "parts":
        if not isinstance(value, bool):
            raise Refused(f"'parts' is true or false, not {value!r}")
        return "yes" if value else "no"
    if key in SEVERAL and isinstance(value, str):
        return "+".join(map(str, lengths_in(value)))
    if key == "packet_bytes":
        return number_word(key, value)
    if key not in SEPARATORS:
        return number_word(key, value)
    if not isinstance(value, list) or not value:
        raise Refused(f"'{key}' is a list of numbers, not {value!r}")
    return SEPARATORS[key].join(number_word(key, number) for number in value)


def load_range(words: str) -> list[str]:
    """The loads A:B:STEP as words, from A up to B."""
    wanted = f"A:B:STEP, as 0.05:0.6:0.05, with at most {MOST_LOADS} loads from A up to B"
    with refusing((ValueError, ArithmeticError), f"loads are {wanted}, not '{words}'"):
        first, last, step = map(Decimal, words.split(":"))
        if not (first.is_finite() and last.is_finite() and 0 <= first <= last < first + MOST_LOADS * step):
            raise ValueError
        return [f"{float(first + number * step):.12g}" for number in range(int((last - first) / step) + 1)]


def words_of(key: str, value: Any) -> list[str]:
    """The values of a setting, one or a list of them, as words."""
    has_several = isinstance(value, list)
    if key in SEPARATORS and key not in SEVERAL:
        has_several = has_several and any(isinstance(part, list) for part in value)
    words: list[str] = []
    for one in value if has_several else [value]:
        words += load_range(one) if key == "load" and isinstance(one, str) else [word_of(key, one)]
    if not words or len(set(words)) < len(words):
        raise Refused(f"'{key}' has {'a value twice' if words else 'no value'}")
    return words


def whole_in(word: str) -> int:
    """A whole number as a word has it; a ValueError where it is none, or too much."""
    number = int(word)
    if TOO_MUCH <= abs(number):
        raise ValueError
    return number


def numbers_in(key: str, word: str, count: int | None = None) -> tuple[int, ...]:
    """The numbers of a setting that has several, as many as are wanted."""
    amount = "numbers" if count is None else f"{count} numbers"
    with refusing(ValueError, f"'{key}' is {amount} with '{SEPARATORS[key]}' between them, not '{word}'"):
        found = tuple(map(whole_in, word.split(SEPARATORS[key])))
        if count not in (None, len(found)):
            raise ValueError
    return found


@dataclass(frozen=True)
class Case:
    """One run: a word for each setting, a dash for one that says nothing here; a table that was made for it; and
    what is asked once of its network and its traffic, where this has been done."""

    words: dict[str, str]
    made_table: str | None = None
    known: Known | None = None

    def whole(self, key: str) -> int:
        """A setting that is a whole number."""
        with refusing(ValueError, f"'{key}' is a number, not '{self.words[key]}'"):
            return whole_in(self.words[key])

    def amount(self, key: str) -> float:
        """A setting that is any number."""
        with refusing(ValueError, f"'{key}' is a number, not '{self.words[key]}'"):
            return float(self.words[key])

    def several(self, key: str, count: int | None = None) -> tuple[int, ...] | None:
        """A setting that is some numbers, if it says something."""
        return None if self.words[key] == NONE else numbers_in(key, self.words[key], count)

    @cached_property
    def network(self) -> Network:
        """The network of the run as noc takes it."""
        words, radix = self.words, numbers_in("radix", self.words["radix"])
        channels, buffer, classes = (self.whole(key) for key in ("channels", "buffer", "classes"))
        rule = "table" if self.made_rule else words["rule"]
        return Network(words["kind"], radix, channels, buffer, classes, rule, self.whole("cycles"))

    @property
    def made_rule(self) -> str | None:
        """The rule of which a table is made, where noc does not have it."""
        return self.words["rule"] if self.words["rule"] in TABLE_RULES else None

    @property
    def table(self) -> str | None:
        """The path of its routing table: one that was made, or else given."""
        return self.made_table or (None if self.words["table"] == NONE else self.words["table"])

    def with_table(self, folder: Path) -> "Case":
        """The case with its table, which is made in a folder where noc does not have the rule."""
        if self.made_rule is None:
            return self
        return replace(self, made_table=checked_table(self.network, self.made_rule, folder))

    def asked(self) -> "Case":
        """The case with what is asked once, where noc takes its network. A table that is made for a rule has ranks."""
        return replace(self, known=self.experiment.learnt(is_free=self.made_table is not None))

    @property
    def table_digest(self) -> str:
        """The digest of its table."""
        return digest(self.table) if self.table else NONE

    @cached_property
    def traffic(self) -> Demand | Played:
        """What traffic it has."""
        words, load = self.words, self.amount("load")
        if words["traffic"] != NONE:
            return Played(words["traffic"], load)
        lengths, classes = lengths_in(words["length"]), numbers_in("packet_classes", words["packet_classes"])
        share = SHARE if words["share"] == NONE else self.amount("share")
        burst = self.several("burst", 2)
        flits = load / self.unit.of_a_flit(classes[0], lengths)
        return Demand(
            words["pattern"], flits, lengths, self.whole("seed"), None, classes, self.several("spots"), share,
            (burst[0], burst[1]) if burst else None,
        )

    @property
    def unit(self) -> Unit:
        """In what loads are told."""
        flit_bytes = 1 if self.words["flit_bytes"] == NONE else self.whole("flit_bytes")
        classes = self.several("packet_classes") or ()
        return Unit(self.words["unit"], flit_bytes, self.several("packet_bytes") or (), classes)

    @property
    def levels(self) -> Levels:
        """The replies to its traffic, and the replies to these."""
        numbers = self.several("replies") or ()
        if len(numbers) % 4:
            raise Refused(f"'replies' is 4 numbers for each level of replies, not {len(numbers)}")
        return tuple(Replies(*numbers[first:first + 4]) for first in range(0, len(numbers), 4))

    @cached_property
    def experiment(self) -> Experiment:
        """What is measured."""
        window = Window(*numbers_in("window", self.words["window"]))
        return Experiment(
            self.network, self.traffic, window, self.table, self.amount("tolerance"),
            self.levels, self.several("measured_classes"), self.unit, self.words["parts"] == "yes", self.known,
        )

    @cached_property
    def run(self) -> str:
        """The name of the run: digits of a digest of its settings, with what is in its files instead of where they
        are."""
        words = self.words | {key: digest(self.words[key]) for key in PATHS if self.words[key] != NONE}
        lines = "\n".join(f"{key}={word}" for key, word in words.items())
        return hashlib.sha256(lines.encode()).hexdigest()[:DIGITS]

    @property
    def combination(self) -> tuple[str, ...]:
        """All settings but load and seed."""
        return tuple(word for key, word in self.words.items() if key not in ("load", "seed"))


def normal(given: dict[str, str]) -> Case:
    """A case from a word for each setting: those that say nothing here have a dash, and the window is said."""
    words = {**BY_DEFAULT, **given}
    if words["traffic"] != NONE:
        words = {"load": "1", **words, **dict.fromkeys(OF_DEMANDS, NONE)}
    elif words["pattern"] != HOT_SPOT:
        words["spots"] = words["share"] = NONE
    words = with_lengths(words)
    words["unit"] = unit_word(words)
    missing = [key for key in SETTINGS if key not in words]
    if missing:
        raise Refused(f"'{missing[0]}' is not set")
    if words["parts"] not in ("yes", "no"):
        raise Refused(f"'parts' is yes or no, not '{words['parts']}'")
    if words["rule"] != "table":
        words["table"] = NONE
    case = Case({key: words[key] for key in SETTINGS})
    cycles = case.whole("cycles")
    if words["window"] == NONE:
        window = middle_window(cycles)
        case.words["window"] = f"{window.first}:{window.end}"
    bounds = numbers_in("window", case.words["window"])
    if len(bounds) != 2 or not 0 <= bounds[0] < bounds[1] <= cycles:
        wanted = f"[A, B] with A below B, and B at most the {cycles} cycles of the run"
        raise Refused(f"a window is {wanted}, not {list(bounds)}")
    return case


def unit_word(words: Mapping[str, str]) -> str:
    """The unit of loads: the one that is asked for, or what the other settings say."""
    has_bytes, has_payload = (words[key] != NONE for key in ("flit_bytes", "packet_bytes"))
    unit = checked(words.get("unit", PAYLOAD if has_payload else BYTES if has_bytes else FLITS))
    if unit in (BYTES, PAYLOAD) and not has_bytes:
        raise Refused(f"the unit '{unit}' needs 'flit_bytes'")
    if unit == PAYLOAD and not has_payload:
        raise Refused("the unit 'payload' needs 'packet_bytes'")
    return unit


def worth_of_a_flit(words: Mapping[str, str]) -> float | None:
    """For what a flit counts in loads; None where lengths are not known."""
    unit = words.get("unit", FLITS)
    if unit == FLITS:
        return 1
    if unit == BYTES:
        return whole_in(words["flit_bytes"])
    if words["length"] == NONE:
        return None
    case = Case(dict(words))
    return case.unit.of_a_flit(numbers_in("packet_classes", words["packet_classes"])[0], lengths_in(words["length"]))


def with_lengths(words: dict[str, str]) -> dict[str, str]:
    """The words with the lengths of packets, where these have so many bytes of payload."""
    if words["packet_bytes"] == NONE:
        return words
    if words["flit_bytes"] == NONE:
        raise Refused("'packet_bytes' needs 'flit_bytes', which says into how many flits they go")
    sizes = numbers_in("packet_bytes", words["packet_bytes"])
    flit_bytes = Case(words).whole("flit_bytes")
    if min(*sizes, flit_bytes) < 1:
        raise Refused("'packet_bytes' and 'flit_bytes' are whole numbers of 1 or more")
    length = SEPARATORS["packet_bytes"].join(str(flits_of(size, flit_bytes)) for size in sizes)
    if words.get("length", length) != length:
        raise Refused(f"'length' is {length} by 'packet_bytes', so it is not said, or as {length}")
    return {**words, "length": length}


def case_of(settings: list[str]) -> Case:
    """The case of words SETTING=VALUE, with the others as they are by default."""
    words = {}
    for setting in settings:
        key, equals, word = setting.partition("=")
        if key not in SETTINGS or not equals:
            raise Refused(f"'{setting}' is no SETTING=VALUE: the settings are {', '.join(SETTINGS)}")
        words[key] = word
    return normal(words)


# ---- names


def shown(words: Mapping[str, str], key: str) -> str:
    """A setting as it is shown: of a file its name."""
    return Path(words[key]).name if key in PATHS else words[key]


def named(words: Mapping[str, str], key: str) -> str:
    """A setting with what it is."""
    value = shown(words, key)
    if key in COUNTED:
        one, more = COUNTED[key]
        return f"{value} {one if value == '1' else more}"
    return value if key in BY_VALUE else f"{key} {value}"


def name_of(words: Mapping[str, str], keys: list[str]) -> str:
    """The name of what has these settings."""
    return ", ".join(named(words, key) for key in keys if words[key] != NONE)


# What a study says beside its settings.
OTHERS = ["cases", "search", "at", "frames", "colour", "dash", "along"]


class View(NamedTuple):
    """Along which setting a curve goes, and how curves are told apart: the settings of which each value has a frame of
    its own, and those of colours and dashes; where these are not given, they are chosen."""

    frames: list[str] | None = None
    colour: str | None = None
    dash: str | None = None
    along: str = LOAD

    def check(self) -> None:
        """Refuses to tell curves apart by what is the same for all of them: each has all of its values."""
        for key in [*(self.frames or []), self.colour, self.dash]:
            if key in (self.along, SEED):
                raise Refused(f"a curve has all values of '{key}', which so tells no curves apart")


class Plan(NamedTuple):
    """What a study asks for."""

    cases: list[Case]
    # How near the load is found at which a network gives way, and at which load the table gives latencies.
    search: float | None
    at: float | None
    view: View


def read_document(path: str) -> dict[str, Any]:
    """The settings as they stand in the file."""
    with refusing(ValueError, f"{path} is no TOML: "):
        return tomllib.loads(read_text(path, "TOML"))


def known(settings: Mapping[str, Any], path: str, name: str) -> dict[str, list[str]]:
    """The settings of a table as words; the files that it names lie beside the study."""
    for key in settings:
        if key not in SETTINGS:
            names = f"{', '.join(SETTINGS)}; beside them a study has {', '.join(OTHERS)}"
            raise Refused(f"{name} has an unknown setting '{key}': the settings are {names}")
    words = {key: words_of(key, value) for key, value in settings.items()}
    for key in PATHS:
        if key in words:
            beside = Path(path).parent
            words[key] = [word if word == NONE else str((beside / word).resolve()) for word in words[key]]
    return words


def combined(settings: Mapping[str, list[str]]) -> list[Case]:
    """The runs of all combinations of these values."""
    keys = [key for key in SETTINGS if key in settings]
    return [normal(dict(zip(keys, words))) for words in product(*(settings[key] for key in keys))]


def check_meant(settings: Mapping[str, list[str]], cases: Iterable[Case], name: str) -> None:
    """Refuses a setting that says nothing of any of these runs, as the share of a hot spot where there is none."""
    for key, meant in MEANT.items():
        if NONE not in settings.get(key, [NONE]) and {case.words[key] for case in cases} == {NONE}:
            raise Refused(f"{name}: '{key}' is for {meant}, and there are none here")


def cases_of(path: str, document: Mapping[str, Any], tables: Any) -> list[Case]:
    """The runs in their order: case by case, and in each by the settings as listed, with loads and then seeds as the
    fastest. A setting of a case stands in place of that of all."""
    if not isinstance(tables, list) or not tables or not all(isinstance(table, dict) for table in tables):
        raise Refused(f"{path}: 'cases' is a list of tables of settings")
    common, name = known(document, path, path), f"{path}: cases"
    found: list[Case] = []
    for table in tables:
        own = known(table, path, name)
        made = combined(common | own)
        check_meant(own, made, name)
        found += made
    check_meant(common, found, path)
    units = list(dict.fromkeys(case.words["unit"] for case in found))
    if len(units) > 1:
        raise Refused(f"{path}: loads are in {units[0]} in some runs and in {units[1]} in others: say 'unit', or"
                      " 'flit_bytes' and 'packet_bytes' of all")
    # (settings that say nothing in some combinations give the same run twice)
    return list({case.run: case for case in found}.values())


def amount_of(path: str, key: str, value: Any) -> float | None:
    """A load of a study, where it says one."""
    if value is None:
        return None
    if isinstance(value, (int, float)) and 0 < value < float("inf") and not isinstance(value, bool):
        return float(value)
    raise Refused(f"{path}: '{key}' is a number above 0, not {value!r}")


def view_of(document: dict[str, Any]) -> View:
    """How the study is shown."""
    frames, colour, dash, along = (document.pop(key, None) for key in ("frames", "colour", "dash", "along"))
    named = frames if isinstance(frames, list) else [frames]
    for key in [*named, colour, dash, along]:
        if key is not None and key not in SETTINGS:
            raise Refused(f"'frames', 'colour', 'dash' and 'along' are settings, and {key!r} is none")
    view = View(None if frames is None else named, colour, dash, along or LOAD)
    view.check()
    return view


def plain(value: Any) -> Any:
    """A value of Python as a file has it: lists for tuples, and Python's own numbers for those of other libraries."""
    if hasattr(value, "tolist"):
        value = value.tolist()
    if isinstance(value, Mapping):
        return {key: plain(one) for key, one in value.items()}
    return [plain(one) for one in value] if isinstance(value, (list, tuple)) else value


def read_plan(path: str) -> Plan:
    """What a file asks for."""
    return plan_of(read_document(path), path)


def plan_of(settings: Mapping[str, Any], path: str) -> Plan:
    """What settings ask for; the files that they name lie beside a path, by which sentences call them."""
    document = plain(settings)
    search, at = (amount_of(path, key, document.pop(key, None)) for key in ("search", "at"))
    try:
        view, tables = view_of(document), document.pop("cases", [{}])
        cases = cases_of(path, document, tables)
    except Refused as reason:
        if str(reason).startswith(path):
            raise
        raise Refused(f"{path}: {reason}", reason.status) from None
    if at is not None and at not in {case.amount("load") for case in cases}:
        raise Refused(f"{path}: 'at' is one of the loads, and {at:g} is none of them")
    return Plan(cases, search, at, view)
