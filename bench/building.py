"""Proves and builds benchmark programs written in Rattle."""
import shutil
import subprocess
import sys
from pathlib import Path

from registers import TOP


def build(folder, source, libraries):
    """Proves and builds a source file of bench/ in a copy of the repository, with the libraries that earlier checks built in crates/*/out.
    `libraries` are those that it uses. Returns the path of the program."""
    copy = folder / "copy"
    shutil.copytree(TOP, copy, symlinks=True, ignore=lambda path, names: [
        name for name in names if name == ".git" or Path(path).name == "out" and name != "rlib"])
    name = source.removesuffix(".txt") + "_bench"
    crate = copy / "crates" / name
    (crate / "src").mkdir(parents=True)
    shutil.copy(TOP / "bench" / source, crate / "src" / "main.rt")
    with open(copy / "crates.txt", "a") as lines:
        lines.write(f"{name}: {' '.join(libraries)}\n")
    done = subprocess.run(["rt", "run"], cwd=crate, stdin=subprocess.DEVNULL, capture_output=True, text=True)
    program = crate / "out" / name
    if not program.exists():
        sys.exit(done.stdout + done.stderr)
    return program


def named_by(crate):
    """Returns the libraries that a crate of the repository depends on."""
    lines = (TOP / "crates.txt").read_text().splitlines()
    return next(line for line in lines if line.startswith(f"{crate}:")).split(":")[1].split()
