#!/usr/bin/env python3
"""Builds the program for processors with AVX2 over the libraries that the gate has proved, and runs it.

    run_avx2.py RT

crates.txt has no word for a processor, so the gate compiles for the one that rt takes by itself. Here the main of
crates/noc is proved for AVX2 too, and LLVM and Rattle's own compiler compile it with the libraries. Each program is
run on the stored run of crates/noc, and that of Rattle's compiler on all end-to-end cases too, which the part `cases`
of ./test runs on those of LLVM. The program of LLVM stays as crates/noc/out/noc_avx2, where ./noc looks for it. Each
failure is shown, and the last line is 'N passed, M failed'. The exit status is 0 where all passed, else 1.
"""
import subprocess
import sys
import tempfile
from collections.abc import Iterator
from pathlib import Path

from run_cases import run_all

TOP = Path(__file__).resolve().parents[2]
CRATE, CPU = TOP / "crates/noc", "x86-64-v3"


def called(*words: str | Path) -> None:
    """Runs a command of the kit in the crate's folder, and ends this where it fails."""
    ran = subprocess.run(words, cwd=CRATE, stdin=subprocess.DEVNULL, stdout=subprocess.PIPE, stderr=subprocess.STDOUT,
                         text=True)
    if ran.returncode:
        print(f"{ran.stdout[-2000:]}\nrun_avx2: {words[0]} {words[1]} ended with status {ran.returncode}")
        print("0 passed, 1 failed")
        sys.exit(1)


def programs(kit: Path, room: Path) -> Iterator[Path]:
    """Proves main over the libraries, and yields what each compiler makes of it."""
    rattle, checked = kit / "bin/rattle", room / "checked"
    words: list[str | Path] = ["--crate-name", "noc", "src/main.rt", "--cpu", CPU]
    words += ["--antt-project", kit / "rattle/logic/antt-project.json"]
    words += ["--extern", f"std={kit}/rlibs/std.rlib", "--extern",
              f"noc_program={TOP}/crates/noc_program/out/rlib/noc_program.rlib"]
    words += [word for it in [kit / "rlibs", *TOP.glob("crates/*/out/rlib")] for word in ("-L", f"dependency={it}")]
    called(rattle, "check", *words, "--logic-built", kit / "logic_built", "-o", checked)
    for backend in ("llvm", "rattle"):
        made = room / backend
        called(rattle, "build", *words, "--crate-checked", checked, "--toolchain", kit / "toolchain", "--backend",
               backend, "-o", f"{made}.o")
        parts: list[str | Path] = [f"{made}.o", kit / "c/libos_c.a", kit / "c/liblibc_c.a"]
        called(kit / "bin/rattle-link", "--target", "x86_64-unknown-linux-gnu", "--toolchain", kit / "toolchain",
               "-o", made, *parts)
        yield made


def main() -> int:
    if len(sys.argv) != 2:
        sys.exit(__doc__)
    wanted, passed, failed = (CRATE / "stdout").read_bytes(), 0, 0
    with tempfile.TemporaryDirectory(dir=CRATE / "out") as room:
        for made in programs(Path(sys.argv[1]).resolve().parent.parent, Path(room)):
            ran = subprocess.run(made, stdin=(CRATE / "stdin").open(), capture_output=True)
            is_right = (ran.returncode, ran.stdout) == (0, wanted)
            passed, failed = passed + is_right, failed + (not is_right)
            if not is_right:
                said = f"{ran.stdout[:500]!r} {ran.stderr[:500]!r}"
                print(f"{made.name} made a program that ended with status {ran.returncode}: {said}")
        cases = run_all(Path(room) / "rattle", TOP / "tests/cases")
        passed, failed = passed + cases[0], failed + cases[1]
        (Path(room) / "llvm").replace(CRATE / "out/noc_avx2")
    print(f"{passed} passed, {failed} failed")
    return 0 if passed and not failed else 1


if __name__ == "__main__":
    sys.exit(main())
