#!/usr/bin/env python3
"""Copies the engine as plain Rust without contracts, and compiles the copy in seconds.

    plain.py OUT [--of TOP] [--rustc] [--checked] [--apart NAME..]

The crates that run a network, noc_engine and those below it, are read from this checkout or from the one in TOP. They
are written to OUT/src without what only proofs need, with the lists of lists.rs and the program of main.rs. What is
compiled of them is OUT/plain. It is called as 'run CONFIG TRAFFIC [--report WORD] [--time]', where WORD is latency or
stalls, and writes the report that the program writes. With --time it writes 'seconds S', the time of its cycle loop, to
standard error. So measure.py can compare it, by --against OUT/plain --own-clock.

The copy is compiled for AVX2 by the compiler of the kit of $RT, or else of rt on PATH. As with the program, there is no
promise that references do not overlap. With --rustc it is compiled by rustc alone, which needs no kit and promises
this. Indices are proved to be in their bounds, so the copy does not look at them. With --checked it does, for a change
that is not proved yet, and stops at one that is out of them. Functions of the names behind --apart are never inlined,
so that count.py shows them apart. That changes their code a little.

Where a source has a form that is not known here, rustc says so, at a line of OUT/src.
"""
import argparse
import os
import re
import shutil
import subprocess
import sys
from pathlib import Path

HERE = Path(__file__).resolve().parent
RUSTC = ["rustc", "--edition", "2021", "--crate-name", "plain", "-C", "opt-level=3", "-C", "target-cpu=x86-64-v3",
         "-C", "codegen-units=1", "-C", "debuginfo=1", "-A", "warnings"]
CLANG = ["-O3", "-march=x86-64-v3", "-fPIC", "-Wno-override-module", "-x", "ir", "-c"]
USED = re.compile(r"^(?:pub )?use (noc_\w+)", re.MULTILINE)
PAIRS = {"{": re.compile("[{}]"), "[": re.compile(r"[\[\]]")}
# The heads of clauses, of ghost items, and of traits that are made otherwise in Rust, each with the brace that opens.
FOR_PROOFS = re.compile(r"^[ \t]*(?:requires|ensures|decreases)\b[^{\n]*\{"
                        r"|^[ \t]*ghost (?!use)\w+ ?[:=] ?\{"
                        r"|^impl(?:<[^>]*>)? (?:fmt::Display|Error|Model) for \w+ \{", re.MULTILINE)
BEHIND_PROOFS = re.compile(r"[,;]*\n?")
# What stands for what, line by line: comments go first.
RULES = [(re.compile(pattern, re.MULTILINE), put) for pattern, put in (
    (r"^[ \t]*//.*\n", ""),
    (r"^[ \t]*ghost use [^;]*;\n", ""),
    (r"^[ \t]*#!?\[tactic\([^\]]*\)\]\n", ""),
    (r"^[ \t]*(?:const _: \(\) = )?prove!\([^;]*;\n", ""),
    (r"^use std::marker::Model;\n", ""),
    # In Rust all is dropped with no word of it, and what is cloned needs no memory that may be missing.
    (r"#\[derive\(Drop\)\]\n[ \t]*", ""),
    (r", Drop\)\]", ")]"),
    (r"\b([A-Z]\w*): Drop\b", r"\1"),
    (r"(fn clone\(&self\) -> )Result<(.*), AllocError> \{\n(\s*)Ok\((.*)\)\n", r"\1\2 {\n\3\4\n"),
    # Lists are those of lists.rs, and each crate is a module.
    (r"\bstd::(?:alloc|snapshot)::", "crate::lists::"),
    (r"vec!\[in alloc; (.*?); ([^;]*?)\](?=\?| else|;)", r"crate::lists::filled(\1, \2)"),
    (r"(?<![\w:])(noc_\w+)::(?=[\w{])", r"crate::\1::"))]
# An index begins behind a name or a bracket; in comments and texts there is none.
BRACKET = re.compile(r'//.*|"(?:\\.|[^"\\])*"|[\[\]]')
INDEXED = re.compile(r"[\w)\]]")
# In the text for LLVM: where a function begins or is called, and what is promised of its references there.
CALL = re.compile(r"^define|call|invoke")
PROMISE = re.compile(r" (?:noalias|readonly)(?= )| captures\([^)]*\)")


def behind(text: str, at: int) -> int:
    """The place behind the bracket that closes the one at this place."""
    deep = 0
    for found in PAIRS[text[at]].finditer(text, at):
        deep += 1 if found[0] == text[at] else -1
        if deep == 0:
            return found.end()
    sys.exit(f"plain: nothing closes {text[at:at + 80]!r}")


def without_proofs(text: str) -> str:
    """The text without the items that only proofs need."""
    kept, at = [], 0
    while found := FOR_PROOFS.search(text, at):
        kept.append(text[at:found.start()])
        end = behind(text, found.end() - 1)
        left = BEHIND_PROOFS.match(text, end)
        at = left.end() if left else end
    return "".join(kept) + text[at:]


def unchecked(text: str) -> str:
    """The text with each index a[i] as a[At(i)], which is not checked. Ranges stay as they are."""
    opened: list[bool] = []

    def changed(found: re.Match[str]) -> str:
        if found[0] == "]":
            return ")]" if opened.pop() else "]"
        if found[0] != "[":
            return found[0]
        at = found.start()
        inside = text[at + 1:behind(text, at) - 1]
        opened.append(bool(INDEXED.match(text[at - 1:at]) and inside.strip()) and ".." not in inside)
        return "[At(" if opened[-1] else "["

    return BRACKET.sub(changed, text)


def plain(crate: str, text: str, apart: list[str]) -> str:
    """A file of a crate as plain Rust with checked indices."""
    text = without_proofs(text)
    for pattern, put in RULES:
        text = pattern.sub(put, text)
    text = re.sub(r"\bcrate::(?!lists|noc_)", f"crate::{crate}::", text)
    if apart:
        head = rf"((?:pub(?:\(crate\))? )?fn (?:{'|'.join(apart)})\b)"
        text = re.sub(rf"(?:#\[inline[^\]]*\]\s+)?{head}", r"#[inline(never)]\n\1", text)
    return "use crate::lists::{At, Vec};\n" + text


def copy(top: Path, src: Path, apart: list[str], checked: bool) -> None:
    """Writes the copy, with each crate as a module."""
    crates = ["noc_engine"]
    for crate in crates:
        (src / crate).mkdir(parents=True)
        for file in sorted((top / "crates" / crate / "src").glob("*.rt")):
            text = file.read_text()
            crates += sorted(set(USED.findall(text)) - set(crates))
            text = plain(crate, text, apart)
            to = src / crate / ("mod.rs" if file.stem == "lib" else f"{file.stem}.rs")
            to.write_text(text if checked else unchecked(text))
    shutil.copy(HERE / "lists.rs", src)
    (src / "main.rs").write_text((HERE / "main.rs").read_text() + "".join(f"mod {crate};\n" for crate in crates))


def run(*words: str | Path) -> str:
    """Runs a command, which has to end well; returns what it prints."""
    ran = subprocess.run(words, stdout=subprocess.PIPE, text=True)
    if ran.returncode:
        sys.exit(f"plain: {words[0]} ended with status {ran.returncode}")
    return ran.stdout


def compile_by_kit(out: Path) -> None:
    """Compiles the copy by the compiler of the kit, with no promise that references do not overlap."""
    rt = shutil.which(os.environ.get("RT", "rt"))
    if rt is None:
        sys.exit("plain: rt is not there: put it on PATH, or its path into RT, or call this with --rustc")
    code, made = out / "plain.ll", out / "plain.o"
    run(*RUSTC, "-C", "no-prepopulate-passes", "-C", "prefer-dynamic", f"--emit=llvm-ir={code}", out / "src/main.rs")
    lines = code.read_text().split("\n")
    code.write_text("\n".join(PROMISE.sub("", line) if CALL.search(line) else line for line in lines))
    run(Path(rt).resolve().parent.parent / "toolchain/bin/clang", *CLANG, "-o", made, code)
    libraries = run("rustc", "--print", "target-libdir").strip()
    run("cc", "-o", out / "plain", made, *Path(libraries).glob("libstd-*.so"), f"-Wl,-rpath,{libraries}")
    code.unlink()
    made.unlink()


def main() -> None:
    options = argparse.ArgumentParser(description="Copies the engine as plain Rust, and compiles the copy.")
    options.add_argument("out", type=Path, metavar="OUT", help="the folder of the copy, which is made anew")
    options.add_argument("--of", type=Path, metavar="TOP", default=HERE.parent.parent, help="another checkout")
    options.add_argument("--rustc", action="store_true", help="compile by rustc alone")
    options.add_argument("--checked", action="store_true", help="look at indices")
    options.add_argument("--apart", nargs="+", metavar="NAME", default=[], help="functions that are never inlined")
    asked = options.parse_args()
    out = asked.out.resolve()
    if (out / "src").exists():
        if not (out / "src/lists.rs").exists():
            sys.exit(f"plain: {out}/src is no copy, and stays as it is")
        shutil.rmtree(out / "src")
    copy(asked.of, out / "src", asked.apart, asked.checked)
    if asked.rustc:
        run(*RUSTC, "-o", out / "plain", out / "src/main.rs")
    else:
        compile_by_kit(out)


if __name__ == "__main__":
    main()
