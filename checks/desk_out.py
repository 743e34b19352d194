#!/usr/bin/env python3
"""Checks `desk/openvswitch`: `checks/desk_out.py`.

- Only whole texts of `show` are taken: none that is empty, cut anywhere, or has a line too many or
  too few. What is refused is told in one line, with status 2; Ctrl-C is one line too.
- `--check` refuses a journal that lacks a row of its schedule.
- The ports that are listed with the flows of the examples can be made as it says there; with them
  the flows are taken, and without them they aren't.
- `--check`: each lookup of the examples is as in the journals.
- `--network`: each packet of the examples without failures, of some random schedules, and of the
  folder that `model/fat_tree.py` makes, ends as in the journal. Folders that it can't play are
  refused, what is wrong in a journal is found, and Ctrl-C leaves nothing running.

The last three need Open vSwitch; where it isn't there the check says that they are skipped. It ends
with 1 where anything is wrong.
"""
import os
import re
import shutil
import signal
import subprocess
import sys
import tempfile
import time
from pathlib import Path

sys.dont_write_bytecode = True

HOME = Path(__file__).resolve().parent.parent
EXAMPLES, DESK = HOME / "crates/examples/data", HOME / "desk"
sys.path.insert(0, str(DESK))
from bridges import daemon, lookups, tables  # noqa: E402

SCRIPT = [sys.executable, str(DESK / "openvswitch")]
LOOKUPS = 29
TEXT = (EXAMPLES / "campus/show-b.txt").read_text()
REFUSED = {
    "": "the text is empty",
    "\n": "line 1: a line `switch NAME version 1` must be here, and not ''",
    "# a page\n": "line 1: a line `switch NAME version 1` must be here, and not '# a page'",
    TEXT[:-9]: "line 14: the text is cut off: its last line has no end",
    TEXT[: TEXT.index("partitions")]: "line 13: the text ends, and a line `partitions K` must",
    TEXT.replace("authority 1\n", "authority 1\n\n"): "line 3: a line `part N region WORD rules M`",
    TEXT.replace("authority 1\n", "authority 2\n"): "line 13: a line `part N region WORD rules M`",
    TEXT.replace("region 0", "region 3"): "line 3: the word has a bit that its mask leaves free",
    TEXT.replace("targets b", "targets c"): "line 14: the parts with the target b aren't those",
    TEXT.replace("drop", "out:64"): "line 11: a line `  rank R rule RULE word WORD ACTION` must",
    TEXT + "\n": "line 15: this is not a line of a journal: ''",
    TEXT + TEXT: "line 15: this is not a line of a journal: 'switch b version 1'",
    TEXT.replace("\n", "\r\n"): "line 1: a line `switch NAME version 1` must be here",
}
SEEDS = 10
FAULTS = {
    "out 1 port 2": ("out 1 port 3", 2),
    "hopped 3 b": ("hopped 3 c", 1),
    "dropped 3": ("out 3 port 2", 2),
    "rule 100 drop authority": ("rule 200 drop authority", 1),
}
SPOILT = {
    "schedule.csv": ("packet,d", "packet,c", "row 5 of schedule.csv is 'packet,c,"),
    "net.toml": ('name = "c"', "name = c", "input net.toml code 1 row 0: "),
    "policy.csv": ("any,443", "any,x", "input policy.csv code 7 row 1: "),
    "show-b.txt": ("authority", "authorities", "show-b.txt line 2: a line `authority K` must"),
    "journal.txt": ("  dropped 3", "  down d", "no link or switch may fail, as in row 6: hop 3"),
}


def run(*args, text=None):
    return subprocess.run([*SCRIPT, *args], input=text, capture_output=True, text=True)


def is_whole(text):
    try:
        lookups.read_text(text)
    except tables.Refused:
        return False
    return True


def shows():
    """The texts of the examples that `show` prints."""
    for line in (EXAMPLES / "index.txt").read_text().splitlines():
        name, command, *_ = line.split(" ")
        if command == "show" and name != "-":
            yield name, (EXAMPLES / name).read_text()


def damaged(text):
    """The text cut at each place, and with each line left out or doubled."""
    yield from (text[:end] for end in range(len(text)))
    lines = text.splitlines(keepends=True)
    for place, line in enumerate(lines):
        yield "".join([*lines[:place], *lines[place + 1 :]])
        yield "".join([*lines[:place], line, *lines[place:]])


def texts_wrong():
    """What is wrong with how texts are taken and refused."""
    for text, why in REFUSED.items():
        done = run(text=text)
        told = done.stderr.splitlines()
        if done.returncode != 2 or done.stdout or len(told) != 1:
            yield f"{text[:40]!r} is refused by {done.returncode} {told}"
        elif not told[0].startswith(f"desk/openvswitch: {why}"):
            yield f"{text[:40]!r} is refused by {told[0]}, and not {why}"
    for name, text in shows():
        if not is_whole(text):
            yield f"{name} is refused"
        if any(map(is_whole, damaged(text))):
            yield f"{name} is taken when it is damaged"


def lacking_wrong():
    """What is wrong with how a journal is refused that lacks a row of its schedule."""
    blocks = re.split(r"(?m)^(?=row )", (EXAMPLES / "campus/journal.txt").read_text())
    for place, block in enumerate(blocks):
        number = block.partition(":")[0]
        if number in ("", "row 6"):  # row 6 is a drain, which may have nothing to do
            continue
        with tempfile.TemporaryDirectory() as home:
            folder = Path(shutil.copytree(EXAMPLES / "campus", f"{home}/lacking"))
            (folder / "journal.txt").write_text("".join(blocks[:place] + blocks[place + 1 :]))
            done = run("--check", str(folder))
        is_told = f"journal.txt has no {number}, " in done.stderr
        if done.returncode != 2 or len(done.stderr.splitlines()) != 1 or not is_told:
            yield f"without {number}, --check: {done.stdout}{done.stderr}"


def interrupt_wrong():
    """What is wrong where Ctrl-C ends the script as it reads."""
    pipes = dict.fromkeys(("stdin", "stdout", "stderr"), subprocess.PIPE)
    process = subprocess.Popen(SCRIPT, text=True, **pipes)
    process.stdin.write(TEXT * 200)  # more than a pipe holds, so that the script reads by now
    process.stdin.flush()
    process.send_signal(signal.SIGINT)
    told = process.communicate()
    if told != ("", "desk/openvswitch: interrupted\n") or process.returncode != 130:
        yield f"Ctrl-C: {process.returncode} {told}"


def takes(switch, flows):
    """Whether the bridge takes these flows."""
    try:
        switch.add("br0", flows)
    except daemon.Failed:
        return False
    return True


def ports_wrong():
    """What is wrong with the ports that are listed with the flows of a switch."""
    for name, text in shows():
        told = run(text=text).stdout
        commands = re.findall(r"^# ovs-vsctl (.*)$", told, re.M)
        with daemon.OpenVSwitch() as switch:
            switch.configure(*daemon.bridge_args("br0", {}))
            if takes(switch, told.splitlines()) and commands:
                yield f"{name}: its flows are taken without a port"
            for command in commands:
                switch.configure(*re.sub(r"ADDRESS-OF-\S+", "192.0.2.1", command).split())
            if not takes(switch, told.splitlines()):
                yield f"{name}: its flows aren't taken with the ports that are listed"


def lookups_wrong():
    done = run("--check")
    counts = re.findall(r"flows?; (\d+) lookups? as in the journal, 0 others", done.stdout)
    if done.returncode or sum(map(int, counts)) != LOOKUPS:
        yield f"--check: {done.stdout}{done.stderr}"


def folders(home):
    """A folder for each journal of the examples, with its files as `--network` wants them."""
    for line in (EXAMPLES / "index.txt").read_text().splitlines():
        name, command, *args = line.replace("--net=", "--net ").replace(" --quiet", "").split(" ")
        folder = home / name.removesuffix(".txt").replace("/", "-")
        if name == "-" or command != "replay" or folder.exists():
            continue
        folder.mkdir()
        if "--net" in args:
            at = args.index("--net")
            shutil.copy(EXAMPLES / args[at + 1], folder / "net.toml")
            del args[at : at + 2]
        policies = [f"policy{number or ''}.csv" for number in [None, *range(2, len(args))]]
        for source, target in zip(args, ["schedule.csv", *policies]):
            shutil.copy(EXAMPLES / source, folder / target)
        for path in (EXAMPLES / name).parent.glob("show-*.txt"):
            shutil.copy(path, folder)
        shutil.copy(EXAMPLES / name, folder / "journal.txt")
        yield folder


def examples_wrong(home):
    """What is wrong with the examples: all without failures are as told, the others refused."""
    for folder in folders(home):
        journal = (folder / "journal.txt").read_text()
        fails = re.search(r"^  (link .* down|down .*)$", journal, re.M)
        done = run("--network", str(folder))
        print(f"    {(done.stdout or done.stderr).splitlines()[-1]}", flush=True)
        if fails and (done.returncode != 2 or "no link or switch may fail" not in done.stderr):
            yield f"{folder.name} isn't refused: {done.stdout}{done.stderr}"
        if not fails and (done.returncode or ", 0 differences;" not in done.stdout):
            yield f"{folder.name}: {done.stdout}{done.stderr}"


def faults_wrong(home):
    """What is wrong in a journal and isn't found."""
    shutil.copytree(EXAMPLES / "campus", home / "fault")
    journal = (EXAMPLES / "campus/journal.txt").read_text()
    for right, (wrong, count) in FAULTS.items():
        (home / "fault/journal.txt").write_text(journal.replace(right, wrong))
        done = run("--network", str(home / "fault"))
        if f" {count} difference{'s' * (count != 1)};" not in done.stdout or done.returncode != bool(count):
            yield f"campus with {wrong}: {done.stdout}{done.stderr}"


def refusals_wrong(home):
    """What is wrong with how folders are refused, whose files are no files of one network."""
    for name, (right, spoilt, why) in SPOILT.items():
        folder = home / f"spoilt-{name}"
        shutil.copytree(EXAMPLES / "campus", folder)
        (folder / name).write_text((folder / name).read_text().replace(right, spoilt))
        if name == "policy.csv":
            (folder / "show-a.txt").unlink()
        done = run("--network", str(folder))
        if done.returncode != 2 or why not in done.stderr or len(done.stderr.splitlines()) != 1:
            yield f"campus with another {name}: {done.stdout}{done.stderr}"


def stopping_wrong(home):
    """What is wrong where Ctrl-C ends the script while Open vSwitch runs."""
    (home / "own").mkdir()
    command = [*SCRIPT, "--network", "fat_tree"]
    env = {**os.environ, "TMPDIR": str(home / "own")}
    process = subprocess.Popen(command, env=env, stdout=subprocess.PIPE, stderr=subprocess.STDOUT)
    while process.poll() is None and not list((home / "own").glob("*/ovs-vswitchd.ctl")):
        time.sleep(0.01)
    process.send_signal(signal.SIGINT)
    told = process.communicate()[0].decode()
    if told != "desk/openvswitch: interrupted\n" or list((home / "own").iterdir()):
        yield f"Ctrl-C in a network: {told}, and it leaves {list((home / 'own').iterdir())}"


def random_wrong():
    done = subprocess.run(
        [sys.executable, str(HOME / "model/fuzz_switches.py"), str(SEEDS)],
        capture_output=True, text=True,
    )
    print(f"    {done.stdout.strip()}", flush=True)
    if done.returncode:
        yield f"model/fuzz_switches.py: {done.stdout}{done.stderr}"


def fat_tree_wrong(home):
    """What is wrong with the fat tree of 300 rows and 1,000 packets."""
    make = [sys.executable, str(HOME / "model/fat_tree.py"), str(home / "fat_tree")]
    subprocess.run(make, check=True)
    done = run("--network", str(home / "fat_tree"))
    print(f"    {done.stdout.strip()}", flush=True)
    wanted = r"fat_tree: 20 switches, .* 1,000 packets .* 0 differences; not compared: none\n"
    if done.returncode or not re.fullmatch(wanted, done.stdout):
        yield f"model/fat_tree.py: {done.stdout}{done.stderr}"


def told(check, *args):
    """What a check finds wrong; how long it took is printed."""
    start = time.monotonic()
    wrong = list(check(*args))
    seconds = time.monotonic() - start
    print(f"{check.__name__.replace('_', ' ')}: {len(wrong)}, in {seconds:.0f} s", flush=True)
    return wrong


def main():
    if sys.argv[1:]:
        sys.exit(__doc__)
    wrong = [*told(texts_wrong), *told(lacking_wrong), *told(interrupt_wrong)]
    if daemon.missing_tool():
        print(f"skipped: all that needs Open vSwitch, as {daemon.missing_tool()} isn't installed")
    else:
        wrong += [*told(ports_wrong), *told(lookups_wrong)]
        with tempfile.TemporaryDirectory() as home:
            for check in (examples_wrong, faults_wrong, refusals_wrong, stopping_wrong):
                wrong += told(check, Path(home))
            wrong += [*told(random_wrong), *told(fat_tree_wrong, Path(home))]
    print("\n".join(wrong) or "all as it must be")
    sys.exit(bool(wrong))


main()
