"""Makes the wheel of noc_tools for pip, by Python's library alone: so 'pip install .' needs no
other package.

It is a build backend (PEP 517 and 660) that pip and build call: `build_wheel`, `build_editable` and
`build_sdist`. The same files give the same bytes, since nothing of the clock or of the disk goes
into an archive but names and contents.

In a folder that './noc --install' made, the wheel has the programs, manual pages, completions and
examples too. It is for Linux on x86-64 with the glibc that the programs want.
"""
import base64
import gzip
import hashlib
import io
import re
import tarfile
import tomllib
import zipfile
from collections.abc import Mapping
from pathlib import Path
from typing import Any

TOP = Path(__file__).resolve().parent.parent
# The ends of the names of what belongs to the package.
KINDS = (".py", ".html", ".css", ".js", ".sv", ".typed")
# What an archive of sources has beside the package, its readme and its licences.
OTHERS = ("pyproject.toml", "release/make_wheel.py", "CHANGELOG.md", "CITATION.cff")
PURE = "py3-none-any"
# What './noc --install' puts there: what calls the programs, and the folder that has them.
CALLER, PROGRAMS = TOP / "noc", TOP / "lib/noc"
# Where the other files of such a folder go below the root of an environment.
SHARED = {"lib": "lib", "share": "share",
          **{name: f"share/doc/noc/{name}" for name in ("README.md", "docs", "examples")}}
# A version of glibc of which a program wants a symbol.
GLIBC = re.compile(rb"GLIBC_2\.(\d+)\0")
# The files of an archive by their paths.
Files = Mapping[str, bytes]


def project() -> dict[str, Any]:
    """What pyproject.toml says of the package."""
    found: dict[str, Any] = tomllib.loads((TOP / "pyproject.toml").read_text())["project"]
    return found


def full_name(about: Mapping[str, Any]) -> str:
    """The name and the version, with which the names of archives begin."""
    return f"{about['name']}-{about['version']}"


def metadata(about: Mapping[str, Any]) -> str:
    """What an index of packages shows: fields, and the readme behind an empty line."""
    extras = about.get("optional-dependencies", {})
    fields = [
        ("Metadata-Version", "2.1"), ("Name", about["name"]), ("Version", about["version"]),
        ("Summary", about["description"]),
        ("Author", ", ".join(each["name"] for each in about["authors"])),
        ("License", about["license"]), *(("License-File", name) for name in about["license-files"]),
        ("Keywords", ",".join(about["keywords"])),
        *(("Classifier", name) for name in about["classifiers"]),
        *(("Project-URL", f"{name}, {url}") for name, url in about.get("urls", {}).items()),
        ("Requires-Python", about["requires-python"]),
        *(("Provides-Extra", extra) for extra in extras),
        *(("Requires-Dist", f"{wanted}; extra == '{extra}'") for extra, all_wanted in extras.items()
          for wanted in all_wanted),
        ("Description-Content-Type", "text/markdown"),
    ]
    head = "".join(f"{name}: {value}\n" for name, value in fields)
    return f"{head}\n{(TOP / about['readme']).read_text()}"


def about_files(about: Mapping[str, Any], tag: str) -> dict[str, bytes]:
    """The files that tell pip what is installed, but for the list of all."""
    scripts = "".join(f"{name} = {function}\n" for name, function in about["scripts"].items())
    is_pure = "true" if tag == PURE else "false"
    texts = {
        "METADATA": metadata(about), "entry_points.txt": f"[console_scripts]\n{scripts}",
        "WHEEL": "Wheel-Version: 1.0\nGenerator: make_wheel\n"
                 f"Root-Is-Purelib: {is_pure}\nTag: {tag}\n",
    }
    licences = {f"licenses/{name}": (TOP / name).read_bytes() for name in about["license-files"]}
    return {name: text.encode() for name, text in texts.items()} | licences


def package_files() -> dict[str, bytes]:
    """The files of the package."""
    sources = (path for path in sorted((TOP / "noc_tools").rglob("*")) if path.suffix in KINDS)
    return {path.relative_to(TOP).as_posix(): path.read_bytes() for path in sources}


def files_below(path: Path) -> list[Path]:
    """A file, or all files of a folder; none where nothing is there."""
    return [each for each in (path, *sorted(path.rglob("*"))) if each.is_file()]


def program_files(about: Mapping[str, Any]) -> dict[str, bytes]:
    """The programs and all that belongs to them, where they are there."""
    if not PROGRAMS.is_dir():
        return {}
    data = f"{full_name(about)}.data"
    paths = [(name, path) for name in SHARED for path in files_below(TOP / name)]
    shared = {f"{data}/data/{SHARED[name]}{path.as_posix().removeprefix(str(TOP / name))}":
              path.read_bytes() for name, path in paths}
    return {f"{data}/scripts/noc": CALLER.read_bytes(), **shared}


def tag_of(files: Files) -> str:
    """For which systems a wheel with these files is: all, or those with the glibc that programs
    among them want."""
    wanted = [int(version) for data in files.values() for version in GLIBC.findall(data)]
    return f"py3-none-manylinux_2_{max(wanted)}_x86_64" if wanted else PURE


def recorded(name: str, data: bytes) -> str:
    """The line for a file in the list of all."""
    digest = base64.urlsafe_b64encode(hashlib.sha256(data).digest()).rstrip(b"=").decode()
    return f"{name},sha256={digest},{len(data)}\n"


def is_run(data: bytes) -> bool:
    """Whether a file is a program or a script."""
    return data.startswith((b"\x7fELF", b"#!"))


def wheel_of(folder: str, files: Files) -> str:
    """Writes a wheel with these files into a folder, and returns its name."""
    about, tag = project(), tag_of(files)
    information = f"{full_name(about)}.dist-info"
    told = {f"{information}/{file}": data for file, data in about_files(about, tag).items()}
    contents = {**files, **told}
    listed = f"{information}/RECORD"
    lines = [*(recorded(*file) for file in contents.items()), f"{listed},,\n"]
    contents[listed] = "".join(lines).encode()
    wheel = f"{full_name(about)}-{tag}.whl"
    with zipfile.ZipFile(Path(folder) / wheel, "w") as archive:
        for path, data in contents.items():
            entry = zipfile.ZipInfo(path)
            entry.external_attr = (0o100755 if is_run(data) else 0o100644) << 16
            archive.writestr(entry, data, zipfile.ZIP_DEFLATED)
    return wheel


def build_wheel(folder: str, config_settings: Any = None, metadata_directory: Any = None) -> str:
    """The wheel of the package, and of the programs where these are; pip calls this."""
    return wheel_of(folder, package_files() | program_files(project()))


def build_editable(folder: str, config_settings: Any = None, metadata_directory: Any = None) -> str:
    """A wheel that only says where the package stands, for 'pip install -e .'."""
    return wheel_of(folder, {f"{project()['name']}.pth": f"{TOP}\n".encode()})


def build_sdist(folder: str, config_settings: Any = None) -> str:
    """The archive of all that the wheel is made of."""
    about = project()
    named = [*OTHERS, about["readme"], *about["license-files"]]
    files = {**package_files(), **{name: (TOP / name).read_bytes() for name in named},
             "PKG-INFO": metadata(about).encode()}
    packed = io.BytesIO()
    with tarfile.open(fileobj=packed, mode="w", format=tarfile.PAX_FORMAT) as archive:
        for path, data in files.items():
            entry = tarfile.TarInfo(f"{full_name(about)}/{path}")
            entry.size = len(data)
            archive.addfile(entry, io.BytesIO(data))
    name = f"{full_name(about)}.tar.gz"
    (Path(folder) / name).write_bytes(gzip.compress(packed.getvalue(), mtime=0))
    return name
