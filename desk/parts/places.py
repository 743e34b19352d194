"""Where the repository has what the scripts read, and where folders have their files."""
import atexit
import shutil
import sys
import tempfile
from itertools import takewhile
from pathlib import Path

from .script import Mistake

TOP = Path(__file__).resolve().parents[2]
EXAMPLES = TOP / "crates/examples/data"
MODEL = TOP / "model"
sys.path.append(str(MODEL))  # the modules of the slow model
POLICIES = ["policy.csv", *(f"policy{number}.csv" for number in range(2, 65))]


def policies_in(folder):
    """The names of the policy files of a folder, as far as they are there one after another."""
    return list(takewhile(lambda name: (folder / name).exists(), POLICIES))


def example_of(name):
    """The folder of the example of this name, or None."""
    example = EXAMPLES / name
    is_name = "/" not in name and name not in ("", ".", "..")
    return example if is_name and example.is_dir() and example.parent == EXAMPLES else None


def folder_of(name):
    """The folder at this path, or else the example of this name."""
    folder = Path(name) if name and Path(name).is_dir() else example_of(name)
    if folder is None:
        raise Mistake(f"there is no folder and no example {name[:80]!r}; desk/run lists the examples")
    return folder


def file_of(name):
    """The path of a file as it is given, or else as the examples have it."""
    own, example = Path(name), EXAMPLES / name
    return example if not own.exists() and example.is_file() else own


def check_kind(path):
    """That it is a file or a folder, which the program refuses; others may have no end."""
    if path.exists() and not (path.is_file() or path.is_dir()):
        raise Mistake(f"{path} is not a file but a pipe or a device; put a file in its place")


def joined(places):
    """A folder that is there as long as the script runs, with links of these names to files."""
    folder = Path(tempfile.mkdtemp(prefix="difane-"))
    atexit.register(shutil.rmtree, folder, ignore_errors=True)
    for name, path in places.items():
        (folder / name).symlink_to(path.resolve())
    return folder
