"""Runs a small program over the crates of this repository in a folder of its own, outside the gate."""
import pathlib
import shutil
import subprocess
import sys
import tempfile

TOP = pathlib.Path(__file__).resolve().parent.parent


def run(name, libraries, given):
    """What the program `programs/NAME.in` writes, by the kit's `rt try`, where it reads `given`."""
    source = (TOP / "tests" / "programs" / f"{name}.in").read_text()
    with tempfile.TemporaryDirectory() as folder:
        work = pathlib.Path(folder)
        crates = work / "crates"
        for crate in (TOP / "crates").iterdir():
            shutil.copytree(crate, crates / crate.name, ignore=shutil.ignore_patterns("out"))
        (crates / name / "src").mkdir(parents=True)
        (crates / name / "src" / "main.rt").write_text(source)
        listed = (TOP / "crates.txt").read_text()
        (work / "crates.txt").write_text(f"{listed}{name}: {' '.join(libraries)}\n")
        ran = subprocess.run(["rt", "try"], cwd=crates / name, input=given, capture_output=True)
    if b"run=ended status=0" not in ran.stdout + ran.stderr:
        sys.exit(f"{name}: the program didn't run to its end:\n{(ran.stdout + ran.stderr)[-2000:].decode()}")
    return ran.stdout
