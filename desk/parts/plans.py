"""The plan of a policy: which switch gets how many rules, and of which headers."""
import re

from . import runners
from .mistakes import mistake_of
from .script import Mistake
from .table import plural, table
from .words import spelled

SAYS = {"program": "by the program", "model": "by the slow model"}
PART = re.compile(r"part (\d+) region (\S+) rules \d+ targets (.+)")
RULE = re.compile(r"  rank (\d+) rule (\S+) word (\S+) (\S+)")


def answer(case, program, file="policy.csv"):
    """The partitions with their rules, and for each switch what it holds, beside its room."""
    compiled = answer_for(case, program, file)
    parts = parts_of(compiled.text)
    rooms = {row["name"]: row.get("authority", 0) for row in case.net()["switch"]}
    return {
        "policy": file,
        "by": compiled.by,
        "words": int(compiled.text.split()[1]),
        "switches": [
            {"switch": name, "room": room, **held_by(name, parts)} for name, room in rooms.items()
        ],
        "parts": parts,
    }


def answer_for(case, program, file):
    """The plan as the program prints it, or the model without one."""
    if not (case.folder / file).is_file():
        raise Mistake(f"there is no file {case.folder / file}")
    net = ["net.toml"] * (case.folder / "net.toml").is_file()
    args, folder = ["compile", file, *(["--net", *net] if net else [])], case.folder
    question = runners.Question(folder, "", args, [file, *net], "", folder)
    found = runners.by_program(program, question) if program else runners.forecast(question)
    if found.status:
        raise mistake_of(case.name, found.told, args, folder)
    found = runners.by_model(question) if found.by == "forecast" else found
    if not re.match(r"words \d", found.text):
        raise Mistake(f"{program} prints no plan, but {found.text[:40]!r}")
    return found


def parts_of(text):
    """The partitions in the lines of `compile`."""
    parts = []
    for line in text.splitlines():
        if found := PART.fullmatch(line):
            number, word, names = found.groups()
            parts.append({"part": int(number), "region": spelled(word), "word": word,
                          "targets": names.split(), "rules": []})
        elif found := RULE.fullmatch(line):
            rank, rule, word, action = found.groups()
            parts[-1]["rules"].append({"rank": int(rank), "rule": rule, "match": spelled(word),
                                       "word": word, "action": action})
    return parts


def held_by(name, parts):
    """How many rules and parts the switch holds, and of how many it is the first target."""
    held = [part for part in parts if name in part["targets"]]
    first = [part for part in held if part["targets"][0] == name]
    count = sum(len(part["rules"]) for part in first)
    return {"rules": sum(len(part["rules"]) for part in held), "first": count,
            "parts": len(held), "first of": len(first)}


def text(found):
    """The switches, the parts, and then the rules of each part."""
    parts = found["parts"]
    rules = sum(len(part["rules"]) for part in parts)
    yield (f"{found['policy']}: {plural(found['words'], 'word')}, {plural(rules, 'rule')} in "
           f"{plural(len(parts), 'part')}, {SAYS[found['by']]}")
    names = ["switch", "room", "rules", "first", "parts", "first of"]
    yield from table(names, [[one[name] for name in names] for one in found["switches"]])
    yield ""
    rows = [(one["part"], len(one["rules"]), " ".join(one["targets"]), one["region"])
            for one in parts]
    yield from table(["part", "rules", "switches", "region"], rows)
    yield ""
    rows = [
        (part["part"], rule["rule"], rule["action"], rule["match"])
        for part in parts for rule in part["rules"]
    ]
    yield from table(["part", "row", "action", "match"], rows)
