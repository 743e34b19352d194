#!/usr/bin/env python3
"""Calls the scripts of desk/ with wrong words: `checks/desk_calls.py [COUNT] [SEED]`.

COUNT calls (500 where no number is given) take random words: names of commands, options that their
help names, examples, and files that are empty, no text, cut, folders, pipes, or of another kind. No
call may end with a traceback, take more than SECONDS, or end with a status above 7 but 130. It ends
with 1 where one did, and says which.
"""
import os
import random
import re
import subprocess
import sys
import tempfile
from concurrent.futures import ThreadPoolExecutor
from pathlib import Path

HOME = Path(__file__).resolve().parent.parent
DESK, EXAMPLES = HOME / "desk", HOME / "crates/examples/data"
COUNT, SEED, SECONDS, AT_ONCE, MOST_STATUS = 500, 75, 60, 4, 7
NO_CALLS = {"install"}  # it writes where it is told
SLOW = {"--build", "--network", "--check"}  # they build, or ask for bridges
COMMON = ["--model", "--json", "--help", "-h", "", "-", "--", "--x", "0", "-1", "9" * 12, "2", "a",
          "z", "default", "\u00e9", "'", "*", "%s", "../..", "/dev/null", "replay", "compile",
          "show", "flows", "audit", "rebalance", "load", "10.0.1.5", "443", "tcp", "policy.csv"]
EMPTY = ["policy.csv", "schedule.csv", "net.toml", "journal.txt"]


def scripts():
    """The scripts, each with the options that its text names."""
    for path in sorted(DESK.iterdir()):
        if path.is_file() and path.read_text().startswith("#!/usr/bin/env python3"):
            if path.name not in NO_CALLS:
                options = set(re.findall(r"--[a-z][a-z-]+", path.read_text()))
                words = set(re.findall(r'^ +"([a-z]+)": ', path.read_text(), re.M))
                yield path, sorted((options | words) - SLOW)


def damaged(rng, content):
    """The bytes of a file, cut, changed, doubled or in another coding."""
    at = rng.randrange(len(content) + 1)
    return rng.choice([
        content[:at], content[:at] + bytes([rng.randrange(256)]) + content[at + 1 :],
        content.replace(b"\n", b"\r\n"), content + content, b"", b"\xff\xfe" + content,
        content.decode("latin-1").encode("utf-16"), b"\0" * 50, b"[" * 3000, b"# no\n" + content,
        content.replace(b"1", b"99999999999", 3), content.replace(b",", b";"),
    ])


def make_folder(rng, folder):
    """An example whose files are damaged; one of them may be a folder or a pipe."""
    folder.mkdir()
    example = rng.choice(["campus", "crash", "amend", "day", "first"])
    for path in sorted((EXAMPLES / example).iterdir()):
        if path.is_file() and path.suffix in (".csv", ".toml", ".txt"):
            content = path.read_bytes()
            is_damaged = rng.random() < 0.3
            (folder / path.name).write_bytes(damaged(rng, content) if is_damaged else content)
    odd = folder / rng.choice(EMPTY)
    kind = rng.randrange(6)
    if kind < 3:
        odd.unlink(missing_ok=True)
    if kind == 0:
        odd.mkdir()
    elif kind == 1:
        os.mkfifo(odd)


def words_of(rng, options, folders):
    """Up to six words for a script."""
    files = [str(rng.choice(folders) / rng.choice([*EMPTY, "policy2.csv", "none"]))]
    names = [str(rng.choice(folders)), rng.choice(["campus", "crash", "leaves", "none"])]
    pools = [options or COMMON, COMMON, names, names, files]
    return [rng.choice(rng.choice(pools)) for _ in range(rng.randrange(7))]


def fault(script, words, folder):
    """What is wrong with the end of a call, or an empty text."""
    command = [sys.executable, "-B", str(script), *words]
    places = {**os.environ, "XDG_CACHE_HOME": str(folder / "kept"), "PATH": str(folder)}
    try:
        done = subprocess.run(command, cwd=folder, env=places, stdin=subprocess.DEVNULL,
                              capture_output=True, timeout=SECONDS)
    except subprocess.TimeoutExpired:
        return f"it takes more than {SECONDS} seconds"
    errors = done.stderr.decode(errors="replace")
    if "Traceback (most recent" in errors or "Warning:" in errors:
        return errors.strip().splitlines()[-1]
    if not 0 <= done.returncode <= MOST_STATUS:
        return f"status {done.returncode}"
    return "" if done.returncode == 0 or errors else f"status {done.returncode} without a word"


def main():
    if len(sys.argv) > 3 or not all(word.isdecimal() for word in sys.argv[1:]):
        sys.exit(__doc__)
    numbers = [int(word) for word in sys.argv[1:]]
    count, seed = numbers + [COUNT, SEED][len(numbers) :]
    rng, there = random.Random(seed), list(scripts())
    with tempfile.TemporaryDirectory() as name:
        folders = [Path(name, f"d{number}") for number in range(40)]
        for folder in folders:
            make_folder(rng, folder)
        calls = [(path, words_of(rng, options, folders))
                 for path, options in (rng.choice(there) for _ in range(count))]
        with ThreadPoolExecutor(AT_ONCE) as pool:
            found = list(pool.map(lambda call: fault(*call, Path(name)), calls))
    wrong = [(call, why) for call, why in zip(calls, found) if why]
    for (path, words), why in wrong:
        print(f"desk/{path.name} {words}: {why}")
    print(f"{count} calls of {len(there)} scripts, {len(wrong)} wrong")
    sys.exit(bool(wrong))


main()
