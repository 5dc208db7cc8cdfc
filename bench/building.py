"""Builds a program of bench/, over the crates of this repository."""
import pathlib
import shutil
import subprocess
import sys
import tempfile

ROOT = pathlib.Path(__file__).resolve().parent.parent


def built(folder, uses, name=None):
    """Proves and builds folder/main.rattle, which uses these crates, and answers where the program stands.

    X.rattle beside it is its module X, and X.antt.rattle below folder/proofs belongs to its proof. It is built by `rt run` in a
    copy of the crates that it stands on, over what earlier checks kept of them: so it is proved before it is linked. It is left
    at folder/out, under this name, or the folder's where none is given.
    """
    name = name or folder.name
    with tempfile.TemporaryDirectory() as room:
        room = pathlib.Path(room)
        crates = reached(lines_of((ROOT / "crates.txt").read_text()), uses)
        for crate in crates:
            for part in ("src", "specs", "proofs", "out/incremental", "out/rlib"):
                if (ROOT / "crates" / crate / part).is_dir():
                    shutil.copytree(ROOT / "crates" / crate / part, room / "crates" / crate / part)
        copy_program(folder, room / "crates" / name)
        lines = [f"{crate}: {' '.join(below)}\n" for crate, below in {**crates, name: uses}.items()]
        (room / "crates.txt").write_text("".join(lines))
        ran = subprocess.run(
            [str(ROOT / "tools/rt"), "run", "--", "nothing", "0"], cwd=room / "crates" / name, capture_output=True, text=True
        )
        if not (room / "crates" / name / "out" / name).is_file():
            sys.exit(f"{folder}/main.rattle is not built:\n{ran.stdout}{ran.stderr}")
        (folder / "out").mkdir(exist_ok=True)
        shutil.copy(room / "crates" / name / "out" / name, folder / "out" / name)
    return folder / "out" / name


def copy_program(folder, to):
    """Makes the program of a folder a crate."""
    for file in folder.rglob("*.rattle"):
        path = file.relative_to(folder)
        is_proof = path.name.endswith(".antt.rattle")
        path = to / path.with_suffix("") if is_proof else to / "src" / path.with_suffix(".rt")
        path.parent.mkdir(parents=True, exist_ok=True)
        shutil.copy(file, path)


def lines_of(text):
    """Of each crate that crates.txt lists, what it uses."""
    lines = [line.partition("#")[0].partition(":") for line in text.splitlines()]
    return {name.split()[0]: uses.split() for name, _, uses in lines if name.strip()}


def reached(lines, uses):
    """The crates that a program uses, and those below them, each with what it uses."""
    found, left = {}, list(uses)
    while left:
        crate = left.pop()
        if crate in lines and crate not in found:
            found[crate] = lines[crate]
            left += lines[crate]
    return found
