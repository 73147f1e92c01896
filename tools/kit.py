"""How `rt` calls the prover, for tools that check a crate which is none of the repository's: a copy with an edit, or stated cases. And what
`rt ci` leaves built, which these tools take, since `rt check`, `rt lib` and `rt run` would prove it once more."""

import os
import pathlib
import shutil
import subprocess
import sys

ROOT = pathlib.Path(__file__).resolve().parent.parent
KIT = pathlib.Path(shutil.which("rt") or "rt").resolve().parent.parent


def lines():
    """The repository's crates as crates.txt lists them: each with what stands after its name, and the crates that it names."""
    found = {}
    for line in (ROOT / "crates.txt").read_text().splitlines():
        name, colon, rest = line.partition("#")[0].partition(":")
        if colon:
            found[name.split()[0]] = name.split()[1:], rest.split()
    return found


def needs():
    """The repository's crates, each with those that it names."""
    return {name: rest for name, (_, rest) in lines().items()}


def below(crates):
    """These crates and all that stand below them."""
    uses, found, waiting = needs(), set(), list(crates)
    while waiting:
        if (crate := waiting.pop()) not in found:
            found.add(crate)
            waiting += uses[crate]
    return sorted(found)


def newest():
    """When a file was last changed that a crate is made of."""
    files = [path for part in ("src", "specs", "proofs") for path in ROOT.glob(f"crates/*/{part}/**/*") if path.is_file()]
    return max(path.stat().st_mtime for path in [ROOT / "crates.txt", *files])


def rlib(crate):
    return ROOT / "crates" / crate / f"out/rlib/{crate}.rlib"


def are_built(crates):
    """Whether these libraries and all below them were built after the last change of any crate, as `rt ci` leaves them where nothing was built before."""
    since = newest()
    return all((rlib(crate) / "format").is_file() and rlib(crate).stat().st_mtime > since for crate in below(crates))


def have_built(crates):
    """Proves and builds these libraries, unless that was done."""
    for crate in crates:
        if not are_built([crate]):
            run = subprocess.run(["rt", "lib"], cwd=ROOT / "crates" / crate, capture_output=True, text=True, check=False)
            if run.returncode:
                sys.exit(f"{crate} is not proved\n{run.stdout[-2000:]}{run.stderr}")


def words(name, source, crates, *more):
    """What names a crate that names these crates of the repository, which are built."""
    rlibs = KIT / "rlibs"
    found = ["--crate-name", name, str(source), "--extern", f"std={rlibs}/std.rlib", "-L", f"dependency={rlibs}"]
    found += [word for crate in crates for word in ("--extern", f"{crate}={rlib(crate)}")]
    found += [word for crate in below(crates) for word in ("-L", f"dependency={rlib(crate).parent}")]
    return found + ["--antt-project", str(KIT / "rattle/logic/antt-project.json"), "--logic-built", str(KIT / "logic_built"), *more]


def check(name, source, crates, *more):
    """The command that checks such a crate."""
    return [str(KIT / "bin/rattle"), "check", *words(name, source, crates, *more)]


def build_static(name, crates, archive):
    """The command that proves such a crate and builds a static library of it."""
    made = ("--crate-type", "staticlib", "--links", f"{name}=", "--toolchain", str(KIT / "toolchain"), "--backend", "llvm", "-o", str(archive))
    return [str(KIT / "bin/rattle"), "build", *words(name, "src/lib.rt", crates, *made)]
