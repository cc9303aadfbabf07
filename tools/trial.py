"""What edit, account, slowest and short try, they try on a copy of the repository; they are run at its root."""
import contextlib
import shutil
import subprocess
import sys
import tempfile
import time
from pathlib import Path


@contextlib.contextmanager
def copy():
    """A copy of the crates without what checks left in them. What a check of the same text kept, here or in another copy, rt finds by itself."""
    with tempfile.TemporaryDirectory() as room:
        shutil.copytree("crates", f"{room}/crates", ignore=shutil.ignore_patterns("out"))
        for file in ("crates.txt", "HANDLES"):
            if Path(file).is_file():
                shutil.copy(file, room)
        yield Path(room)


def rt(folder, *words):
    """Runs rt in a folder, and returns its status and what it said."""
    run = subprocess.run(["rt", *words], cwd=folder, stdin=subprocess.DEVNULL, stdout=subprocess.PIPE, stderr=subprocess.STDOUT, text=True, check=False)
    return run.returncode, run.stdout


def from_nothing(folder):
    """Has a copied crate's next check begin from nothing. Its text gets a line that no earlier check has seen, or rt would take what that one kept."""
    for root in (folder / "src/lib.rt", folder / "src/main.rt"):
        if root.is_file():
            root.write_text(f"{root.read_text()}\n// a copy, {time.time_ns()}\n")
    # (the crates below, and of this one nothing)
    rt(folder, "check", "--only", "")
    shutil.rmtree(folder / "out/incremental", ignore_errors=True)
    (folder / "out/incremental").mkdir(parents=True)


def usage(text):
    print(text, file=sys.stderr)
    sys.exit(2)
