"""Archives and installations: what is in a wheel and in an archive of sources, and what pip, build,
twine and mypy make of them. No network is needed."""
import csv
import hashlib
import io
import json
import os
import re
import shutil
import subprocess
import sys
import tempfile
import time
import tomllib
import unittest
import venv
import zipfile
from base64 import urlsafe_b64encode
from email import message_from_bytes
from importlib.util import find_spec
from pathlib import Path

import make_wheel
from noc_tools.cli import COMMANDS

from support import PROGRAM, TOP, FolderTest
from test_notebook import HAS_JUPYTER, shown_by

PROJECT = tomllib.loads((TOP / "pyproject.toml").read_text())["project"]
VERSION = PROJECT["version"]
WHEEL = f"noc_tools-{VERSION}-py3-none-any.whl"
SOURCES = f"noc_tools-{VERSION}.tar.gz"
ABOUT = f"noc_tools-{VERSION}.dist-info/"
LICENCES = ["LICENSE", "LICENSE-MIT", "LICENSE-APACHE", "NOTICE"]
HOOKS = "build_wheel", "build_sdist"
BUILD, TWINE, MYPY, OBJDUMP, SHTAB, HELP2MAN, ZSH, GROFF = map(shutil.which, (
    "pyproject-build", "twine", "mypy", "objdump", "shtab", "help2man", "zsh", "groff"))
# What only builds the program, or says how.
OF_BUILDS = r"builder/|--try\b|--prove\b|--install|--sources|rt ci|not proved yet"
# The first call of a command on a page, and what it says.
EXAMPLE = re.compile(r"^\$ \./noc-tools (.*)\n((?:.+\n)+?)```", re.M)
LINK = re.compile(r"\[[^]]*\]\((?!https?:)([^)#]+)")
# Completes words in bash: those of its arguments, of which the last is completed.
COMPLETE = """. "$1"
shift
COMP_WORDS=("$@") COMP_CWORD=$(($# - 1))
_shtab_noc_tools
printf '%s\\n' "${COMPREPLY[@]}"
"""
# What a user of the library writes, and a line that is wrong where its types are known.
USER = """import noc_tools

latencies: list[int] = noc_tools.latencies("c", "t")
wrong: list[str] = noc_tools.latencies("c", "t")
"""


def built_in(folder: Path, build: str, top: Path = TOP) -> Path:
    """What a hook of the backend makes, in a process of its own as under pip."""
    script = f"import make_wheel; print(make_wheel.{build}({str(folder)!r}))"
    words = ["env", f"PYTHONPATH={top / 'release'}", sys.executable, "-c", script]
    made = subprocess.run(words, cwd=top, capture_output=True, text=True, check=True)
    return Path(folder) / made.stdout.strip()


class FolderOfArchives(unittest.TestCase):
    """A test with a wheel and an archive of sources."""

    folder: Path
    wheel: Path
    sources: Path

    @classmethod
    def setUpClass(cls) -> None:
        cls.folder = Path(cls.enterClassContext(tempfile.TemporaryDirectory(prefix="noc-test-")))
        cls.wheel, cls.sources = (built_in(cls.folder, name) for name in HOOKS)


class Archives(FolderOfArchives):
    def contents(self) -> dict[str, bytes]:
        """What is in the wheel, by its names."""
        with zipfile.ZipFile(self.wheel) as archive:
            return {name: archive.read(name) for name in archive.namelist()}

    def test_their_names_are_those_of_the_version(self) -> None:
        self.assertEqual((self.wheel.name, self.sources.name), (WHEEL, SOURCES))

    def test_the_wheel_has_the_package(self) -> None:
        """All of it that git has, and nothing else, but for what tells of it."""
        words = ["git", "ls-files", "-co", "--exclude-standard", "noc_tools"]
        listed = subprocess.run(words, cwd=TOP, capture_output=True, text=True)
        if listed.returncode:
            self.skipTest("this is no clone, so git does not say what belongs to the package")
        told = {name for name in self.contents() if name.startswith(ABOUT)}
        self.assertEqual(sorted(self.contents().keys() - told), sorted(listed.stdout.split()))
        licences = {f"{ABOUT}licenses/{name}" for name in LICENCES}
        self.assertEqual(told, licences | {f"{ABOUT}{name}" for name in
                                           ("METADATA", "WHEEL", "RECORD", "entry_points.txt")})

    def test_it_has_licences_and_a_mark_of_types(self) -> None:
        """As they are in the repository; a licence has its whole text."""
        contents = self.contents()
        self.assertEqual(contents["noc_tools/py.typed"], b"")
        for name in LICENCES:
            self.assertEqual(contents[f"{ABOUT}licenses/{name}"], (TOP / name).read_bytes())
        mit, apache = (contents[f"{ABOUT}licenses/LICENSE-{name}"] for name in ("MIT", "APACHE"))
        self.assertIn(b"The above copyright notice and this permission notice", mit)
        self.assertIn(b"END OF TERMS AND CONDITIONS", apache)

    def test_what_an_index_shows(self) -> None:
        told = message_from_bytes(self.contents()[f"{ABOUT}METADATA"])
        self.assertEqual((told["Name"], told["Version"], told["Summary"]),
                         ("noc_tools", VERSION, PROJECT["description"]))
        self.assertEqual(told["License"], "MIT OR Apache-2.0")
        self.assertEqual(told.get_all("License-File"), LICENCES)
        self.assertEqual(told["Requires-Python"], ">=3.11")
        self.assertIn("Typing :: Typed", told.get_all("Classifier"))
        self.assertEqual(told["Description-Content-Type"], "text/markdown")
        self.assertTrue(told.get_payload().startswith("# noc\n"))

    def test_addresses_and_extras_are_shown(self) -> None:
        """Those that pyproject.toml has. A requirement of an extra says which one it is of."""
        about = PROJECT | {"urls": {"Source": "https://a.example/noc"},
                           "optional-dependencies": {"extra": ["one>=2"]}}
        told = message_from_bytes(make_wheel.metadata(about).encode())
        self.assertEqual(told["Project-URL"], "Source, https://a.example/noc")
        self.assertEqual(told["Provides-Extra"], "extra")
        self.assertEqual(told["Requires-Dist"], "one>=2; extra == 'extra'")

    def test_the_list_of_all_has_their_digests(self) -> None:
        contents = self.contents()
        rows = list(csv.reader(io.StringIO(contents[f"{ABOUT}RECORD"].decode())))
        self.assertEqual({name for name, *_ in rows}, set(contents))
        for name, digest, size in rows:
            if not name.endswith("/RECORD"):
                right = urlsafe_b64encode(hashlib.sha256(contents[name]).digest()).decode()
                self.assertEqual(digest, f"sha256={right.rstrip('=')}")
                self.assertEqual(size, str(len(contents[name])))

    def test_the_same_files_give_the_same_bytes(self) -> None:
        """Later, in another time zone and from a copy whose files are newer."""
        with tempfile.TemporaryDirectory(prefix="noc-test-") as name:
            copy = Path(name)
            subprocess.run(["tar", "-xf", self.sources, "-C", copy], check=True)
            (top,) = copy.iterdir()
            for path in top.rglob("*"):
                os.utime(path, (time.time() + 3600,) * 2)
            again = [built_in(copy, build, top) for build in ("build_wheel", "build_sdist")]
            self.assertEqual([path.read_bytes() for path in again],
                             [path.read_bytes() for path in (self.wheel, self.sources)])

    @unittest.skipUnless(BUILD, "there is no pyproject-build here")
    def test_build_makes_both(self) -> None:
        """It makes the wheel out of the archive of sources, and the bytes are the same."""
        with tempfile.TemporaryDirectory(prefix="noc-test-") as name:
            ran = subprocess.run([BUILD, "-o", name, TOP], capture_output=True, text=True)
            self.assertEqual(ran.returncode, 0, ran.stdout + ran.stderr)
            made = {path.name: path.read_bytes() for path in Path(name).iterdir()}
        same = {path.name: path.read_bytes() for path in (self.wheel, self.sources)}
        self.assertEqual(made, same)

    @unittest.skipUnless(TWINE, "there is no twine here")
    def test_twine_finds_nothing(self) -> None:
        words = [TWINE, "check", "--strict", self.wheel, self.sources]
        ran = subprocess.run(words, capture_output=True, text=True)
        self.assertEqual(ran.returncode, 0, ran.stdout + ran.stderr)
        self.assertEqual(ran.stdout.count("PASSED"), 2)


class InEnvironment(FolderTest):
    """A test with an environment that has nothing, and an environment of variables that has next to
    nothing."""

    def setUp(self) -> None:
        super().setUp()
        self.root = self.folder / "root"
        venv.create(self.root, symlinks=True)
        self.addCleanup(shutil.rmtree, self.root)

    def pip(self, *words: object) -> None:
        """Has pip do something, and looks whether it did."""
        pip = [sys.executable, "-m", "pip", "--python", self.root / "bin/python",
               "--disable-pip-version-check"]
        ran = self.called([*pip, *words])
        self.assertEqual(ran.returncode, 0, ran.stderr)

    def run_installed(
            self, name: str, *words: object, folder: str | Path = ".", **environment: str,
    ) -> subprocess.CompletedProcess[str]:
        """How a call of what is installed ends."""
        return self.called(["env", "-C", folder, self.root / "bin" / name, *words],
                           env={"PATH": os.defpath, **environment})


@unittest.skipUnless(find_spec("pip"), "there is no pip here")
class Installed(InEnvironment):
    """What pip installs, from a copy of the folder."""

    def setUp(self) -> None:
        super().setUp()
        self.sources = self.folder / "sources"
        kept = shutil.ignore_patterns("__pycache__")
        shutil.copytree(TOP / "noc_tools", self.sources / "noc_tools", ignore=kept)
        (self.sources / "release").mkdir()
        for name in ("pyproject.toml", "release/make_wheel.py", "README.md", *LICENCES):
            shutil.copy(TOP / name, self.sources / name)
        self.addCleanup(shutil.rmtree, self.sources)

    def install(self, *words: object) -> None:
        """Has pip install something, and looks whether something is left behind."""
        before = sorted(self.sources.rglob("*"))
        self.pip("install", "--no-index", *words)
        self.assertEqual(sorted(self.sources.rglob("*")), before)

    def installed(self, *words: object) -> subprocess.CompletedProcess[str]:
        """How an installed command ends, with the program and nothing of the repository."""
        return self.run_installed("noc-tools", *words, NOC=str(PROGRAM))

    def test_pip_installs_it_without_a_network(self) -> None:
        """The command and the page of 'replay' are there."""
        self.install(self.sources)
        page, same = self.installed("replay", "c", "t").stdout, self.said("replay", "c", "t")
        self.assertIn("<h1>c, t: mesh of 3", page)
        self.assertEqual(page, same)

    def test_pip_installs_it_in_place(self) -> None:
        """An edit of the folder is seen at once."""
        self.install("-e", self.sources)
        self.assertIn("life of a packet", self.installed("--help").stdout)
        timeline = self.sources / "noc_tools/commands/timeline.py"
        timeline.write_text(timeline.read_text().replace("life of a packet", "end of a packet"))
        self.assertIn("end of a packet", self.installed("--help").stdout)

    @unittest.skipUnless(MYPY, "there is no mypy here")
    def test_its_types_are_seen(self) -> None:
        """One line of two is wrong, and the package itself is neither unknown nor looked at."""
        self.install(self.sources)
        self.put(**{"root/user.py": USER})
        # (in a folder that has no package beside the file)
        words = [MYPY, "--strict", "--python-executable", "bin/python", "user.py"]
        ran = self.called(["env", "-C", "root", *words])
        (error, last) = ran.stdout.splitlines()
        self.assertIn("user.py:4: error: Incompatible types in assignment", error)
        self.assertIn('expression has type "List[int]"', error.replace("list[", "List["))
        self.assertTrue(last.startswith("Found 1 error in 1 file"))


class Folder(InEnvironment):
    """What './noc --install' makes for who has no kit, and the wheel of it. Both programs are the
    tested one."""

    target: Path
    told: str

    @classmethod
    def setUpClass(cls) -> None:
        super().setUpClass()
        programs = [cls.folder / name for name in ("noc_avx2", "programs/noc")]
        cls.target = cls.folder / "made"
        for path in programs:
            path.parent.mkdir(exist_ok=True)
            shutil.copy(PROGRAM, path)
        words: list[str | Path] = [sys.executable, TOP / "release/make_folder.py", cls.target]
        cls.told = subprocess.run([*words, *programs], capture_output=True, text=True, check=True).stderr

    def pages(self) -> list[Path]:
        """The pages that are installed."""
        return sorted(path for path in self.target.rglob("*.md"))

    def test_a_link_leads_to_what_is_installed(self) -> None:
        self.assertLess(8, len(self.pages()))
        for page in self.pages():
            for target in LINK.findall(page.read_text()):
                with self.subTest(page=page.name, target=target):
                    self.assertTrue((page.parent / target).exists())

    def test_nothing_is_said_of_builds(self) -> None:
        """But for what was new once."""
        for page in self.pages():
            if page.name != "CHANGELOG.md":
                self.assertNotRegex(page.read_text(), OF_BUILDS, page.name)
        self.assertRegex((TOP / "README.md").read_text(), OF_BUILDS)

    def test_its_wheel_gives_all(self) -> None:
        """As the step of a container installs it: the first example of the page, where its files
        were installed, by what was installed and nothing else."""
        self.pip("wheel", "--no-index", "--no-deps", "--wheel-dir", self.folder, self.target)
        (step,) = re.findall(r"^RUN (.*)$", (TOP / "release/Containerfile").read_text(), re.M)
        pip = f'pip() {{ {sys.executable} -m pip --python {self.root}/bin/python "$@"; }}; '
        ran = self.called(["sh", "-ec", pip + step.replace("/tmp/", f"{self.folder}/")])
        self.assertEqual((ran.returncode, list(self.folder.glob("*.whl"))), (0, []), ran.stderr)
        page = self.root / "share/doc/noc/README.md"
        words, told = EXAMPLE.search(page.read_text()).groups()
        ran = self.run_installed("noc-tools", *words.split(), folder=page.parent)
        self.assertEqual((ran.stdout, ran.stderr), (told, ""))
        version = self.run_installed("noc", "--version").stdout
        self.assertEqual(version, self.noc("--version").stdout)
        chosen = Path(self.run_installed("noc", "--which").stdout.strip())
        self.assertEqual(chosen.parent, self.root / "lib/noc")
        self.assertIn(chosen.name, ("noc", "noc_avx2"))
        self.pip("uninstall", "--yes", "noc_tools")
        self.assertEqual([path for path in self.root.rglob("*noc*") if path.is_file()], [])

    @unittest.skipUnless(HAS_JUPYTER, "there is no Jupyter here")
    def test_the_notebook_runs_on_what_is_installed(self) -> None:
        """In an environment with the wheel, and with the libraries that the notebook wants beside
        it."""
        self.pip("install", "--no-index", "--no-deps", self.target)
        path = self.root / "share/doc/noc/examples/notebook.ipynb"
        beside = Path(find_spec("pandas").origin).parent.parent
        ran = self.run_installed("python", TOP / "tests/package/notebook.py", path, PYTHONPATH=str(beside))
        self.assertEqual(ran.returncode, 0, ran.stderr)
        self.assertEqual(shown_by(json.loads(ran.stdout)), shown_by(json.loads(path.read_text())))

    @unittest.skipUnless(OBJDUMP, "there is no objdump here")
    def test_the_wheel_wants_the_glibc_of_its_program(self) -> None:
        """The name of the wheel says which, and so does the page."""
        symbols = self.called([OBJDUMP, "-T", PROGRAM]).stdout
        newest = max(map(int, re.findall(r"GLIBC_2\.(\d+)", symbols)))
        name = built_in(self.folder, "build_wheel", self.target).name
        self.assertEqual(name, f"noc_tools-{VERSION}-py3-none-manylinux_2_{newest}_x86_64.whl")
        self.assertIn(f"pip install {name}`", (TOP / "README.md").read_text())
        self.assertIn(f"glibc 2.{newest} ", (TOP / "README.md").read_text())

    @unittest.skipUnless(SHTAB, "there is no shtab here")
    def test_bash_completes_words(self) -> None:
        """Commands, options, and the names of what a word stands for."""
        script = self.target / "share/bash-completion/completions/noc-tools"

        def completed(*words: str) -> set[str]:
            bash = ["bash", "-c", COMPLETE, "bash", script, "noc-tools"]
            return set(self.called([*bash, *words]).stdout.split())
        self.assertLessEqual({"stalls", "sweep", "shrink"}, completed("s"))
        self.assertEqual(completed("timel"), {"timeline"})
        self.assertEqual(completed("why", "--sl"), {"--slowest"})
        self.assertEqual(completed("load", "c", "4", "0.1", "--pattern", "tra"), {"transpose"})
        self.assertEqual(completed("certify", "exam"), {"examples"})
        self.assertEqual(completed("help", "cer"), {"certify"})

    @unittest.skipUnless(SHTAB and ZSH, "there is no shtab or no zsh here")
    def test_zsh_reads_its_completions(self) -> None:
        script = self.target / "share/zsh/site-functions/_noc-tools"
        ran = self.called([ZSH, "-n", script])
        self.assertEqual((ran.returncode, ran.stderr), (0, ""))
        self.assertTrue(script.read_text().startswith("#compdef noc-tools\n"))

    @unittest.skipUnless(HELP2MAN and GROFF, "there is no help2man or no groff here")
    def test_each_command_has_a_manual_page(self) -> None:
        """It begins with what the command does, has its options, and groff finds nothing wrong in
        it."""
        words = [*(f"noc {name}" for name in ("run", "explain", "trace", "check", "ranks")),
                 *(f"noc-tools {name}" for name in COMMANDS)]
        for call in words:
            name = call.replace(" ", "-")
            manual = self.target / f"share/man/man1/{name}.1"
            ran = self.called([GROFF, "-man", "-ww", "-Tascii", "-P-cbou", manual])
            self.assertEqual(ran.stderr, "", name)
            told = " ".join(ran.stdout.split())
            self.assertRegex(told, f"(?i)NAME {name} .* SYNOPSIS {call} .* options:? ")
        for page in "noc", "noc-tools":
            text = (self.target / f"share/man/man1/{page}.1").read_text().replace("\\", "")
            named = set(re.findall(rf"^\.BR ({page}-[\w-]+) \(1\)", text, re.M)) - {"noc-tools"}
            right = {call.replace(" ", "-") for call in words if call.startswith(f"{page} ")}
            self.assertEqual(named, right)
