"""What is wrong with a heading or a row, of a policy, a change or a schedule."""
import re
import tomllib

from .records import is_open, lines_of, quoted, quoted_if_odd, record_at

POLICY_HEADING = "priority,src,dst,sport,dport,proto,action"
CHANGE_HEADING = f"op,{POLICY_HEADING}"
SCHEDULE_HEADING = "event,arguments"
HEADINGS = {
    POLICY_HEADING: "a policy", CHANGE_HEADING: "a change", SCHEDULE_HEADING: "a schedule",
}
EDIT_FORMS = {"remove": "remove,PRIORITY", "add": f"add,{POLICY_HEADING}"}
FORMS = {
    "packet": "packet,S,SRC,DST,SPORT,DPORT,PROTO",
    **{kind: f"{kind},I" for kind in ("hop", "lose")},
    **{kind: f"{kind},N" for kind in ("deliver", "forget")},
    "expire": "expire,S,K",
    "update": "update,F",
    **{kind: f"{kind},S,T" for kind in ("linkdown", "linkup")},
    **{kind: f"{kind},S" for kind in ("crash", "restart", "confirm", "resend")},
    **{kind: kind for kind in ("flush", "drain")},
}


def said_record(name, record):
    """The line and the text of a record."""
    text = ",".join(map(quoted_if_odd, record.fields))
    lines = f"line {record.line}"
    if record.last > record.line:
        lines = f"lines {record.line} to {record.last}, since a field in quotes has line ends"
    return f"{name}, {lines}: {text}"


def at_row(asked, name, row):
    """The record of a row, and the lines that begin an explanation."""
    record = record_at(asked.path(name), row)
    lines = [] if record is None else [said_record(name, record)]
    if record is not None and record.line != row + 1:
        lines.append(f"row {row} is line {record.line}: the heading and blank lines aren't rows")
    return record, lines


def open_quote(asked, name):
    """A line with one quote too few, from which on all is one field."""
    for at, line in enumerate(lines_of(asked.path(name)), 1):
        if is_open(line):
            yield f"{name}, line {at}: a double quote is opened and isn't closed in its line"
            return


def is_row(fields, heading):
    """Whether a record instead of this heading looks like a row after it."""
    if heading == POLICY_HEADING:
        return len(fields) == heading.count(",") + 1 and fields[0][:1].isdigit()
    return fields[0] in (EDIT_FORMS if heading == CHANGE_HEADING else FORMS)


def heading_fault(asked, name, heading):
    """Of a file without its heading: what it begins with."""
    record = record_at(asked.path(name), 0)
    if record is None:
        yield f"{name} has no record: it is empty, or has only blank lines"
        return
    if is_utf16(asked.path(name)):
        yield f"{name} is in UTF-16: save it as UTF-8"
        return
    found = ",".join(record.fields)
    yield f"{name}, line {record.line}: {','.join(map(quoted_if_odd, record.fields))}"
    bare = re.sub(r"[\s\"']", "", found).lower()
    if found in HEADINGS:
        order = ": the schedule is named first, and then the policies" if asked.schedule else ""
        yield f"this is {HEADINGS[found]}{order}"
    elif re.match(r"\s*(\[|\w+\s*=)", found) or found[:1] == "#" and is_toml(asked.path(name)):
        yield "this looks like TOML: the network's file goes after --net"
    elif found.lstrip().startswith("#"):
        yield f"there are no comments in these files: begin with {heading}"
    elif bare == heading:
        seen = ["blanks, which count"] * any(one != one.strip() for one in record.fields)
        seen += ["capitals, and only lower case is read"] * (found != found.lower())
        yield f"it has {' and '.join(seen) or 'quotes'}: write {heading}"
    elif found.replace(";", ",").replace("\t", ",") == heading:
        yield "the fields are joined by commas"
    elif is_row(record.fields, heading):
        yield f"the first record is a row: put {heading} before it"
    else:
        yield from differing_columns(record.fields, heading.split(","))


def is_utf16(path):
    """Whether the file is in UTF-16, with or without a mark at its begin."""
    start = path.read_bytes()[:4]
    return start[:2] in (b"\xff\xfe", b"\xfe\xff") or start[1::2] == b"\0\0" or (
        start[::2] == b"\0\0")


def is_toml(path):
    """Whether the whole file is a document of TOML that says anything."""
    try:
        return tomllib.loads(path.read_text(encoding="utf-8-sig")) != {}
    except ValueError:
        return False


def differing_columns(found, wanted):
    """The first column that has another name, or how many there are."""
    for number, (one, name) in enumerate(zip(found, wanted), 1):
        if one != name:
            yield f"its column {number} is {quoted(one)}, instead of {name}"
            return
    yield f"the number of columns is {len(found)}, instead of {len(wanted)}"


def wrong_width(asked, name, record, form):
    """How many fields there are, and the form that is needed."""
    count, wanted = len(record.fields), form.count(",") + 1
    yield f"it has {count} field{'s' * (count != 1)}, and its form has {wanted}: {form}"
    if no_row_meant(record):
        yield no_row_meant(record)
    elif count == 1 and re.search("[;\t]", record.fields[0]):
        yield "the fields are joined by commas"
    elif count == wanted + 1 and record.fields[-1] == "":
        yield "a comma after the last field makes one more, which is empty"
    if record.last > record.line:
        yield from open_quote(asked, name)


def no_row_meant(record):
    """Of a line that isn't meant as a row, or an empty text."""
    if record.fields[0].startswith("#"):
        return "there are no comments in these files"
    if not "".join(record.fields).strip():
        return "a line with blanks is a row; only an empty line is skipped"
    return ""
