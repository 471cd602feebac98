"""A program of this folder's own, built over crates of the repository. The other scripts import it."""
import os
import shutil
import subprocess
import sys
import tempfile

TOP = os.path.dirname(os.path.dirname(os.path.abspath(__file__)))


def below(name, lines, found):
    """The crates of ours that a crate stands on, lowest first, with itself."""
    for other in lines.get(name, "").split():
        if other in lines:
            below(other, lines, found)
    if name not in found:
        found.append(name)
    return found


def build(name, over, libraries, text, folder):
    """The program, built in this folder, where it reads this text once."""
    with open(os.path.join(TOP, "crates.txt")) as f:
        lines = dict(line.strip().split(":", 1) for line in f if ":" in line and not line.startswith("#"))
    crates = os.path.join(folder, "crates")
    needed = below(over, lines, [])
    for crate in needed:
        shutil.copytree(os.path.join(TOP, "crates", crate), os.path.join(crates, crate), ignore=shutil.ignore_patterns("out"))
    with open(os.path.join(folder, "crates.txt"), "w") as f:
        f.writelines("%s:%s\n" % (crate, lines[crate]) for crate in needed)
        f.write("%s: %s\n" % (name, libraries))
    shutil.copy(os.path.join(TOP, "HANDLES"), folder)
    own = os.path.join(crates, name)
    os.makedirs(os.path.join(own, "src"))
    shutil.copy(os.path.join(TOP, "bench", name, "main.rt.txt"), os.path.join(own, "src", "main.rt"))
    ended = subprocess.run(["rt", "run"], cwd=own, input=text, text=True, capture_output=True)
    if ended.returncode != 0:
        sys.exit("the program isn't built:\n" + ended.stdout + ended.stderr)
    return os.path.join(own, "out", name)


def built(name, over, libraries, text):
    """The program of bench/NAME/main.rt.txt over a crate of ours and these libraries, built and kept in bench/out."""
    kept = os.path.join(TOP, "bench", "out", name)
    with tempfile.TemporaryDirectory() as folder:
        program = build(name, over, libraries, text, folder)
        os.makedirs(os.path.dirname(kept), exist_ok=True)
        shutil.copy(program, kept)
    return kept
