#!/usr/bin/env python3
"""Looks for prose that is hard to read: `checks/prose.py [FILE..]`.

Without a file it looks at all pages: README.md, those of docs/ and desk/, and the README of bench,
model and of each example. It looks, too, at the comments of the sources, definitions and proofs,
and at the heads of must-fail edits. In the manual page, and in the heads of scripts, which `--help`
prints, it looks only for the words of DIALECT.

It ends with 1 if there is a word of DIALECT, or a sentence or a cell of a table of more than 40
words. It does, too, if a line of a page that is no row of a table, no link and no code has more
than 100 columns, or if README.md has more than 150 lines. With each word it prints the plain one.
Text in backticks counts as one word.
"""
import re
import sys
from pathlib import Path

HOME = Path(__file__).resolve().parent.parent
LONGEST, COLUMNS, README_LINES = 40, 100, 150
DIALECT = {
    r"wants?(?: of memory)?": "out of memory, running out of memory, needs",
    r"takes? (?:no |any )?memory(?! of)": "allocates nothing, allocates",
    r"(?:laws?|facts?) (?:of|on) the (?:definitions?|texts) alone": "about the definitions only",
    r"than which": "at least as, at most as",
    r"so does no other": "no other does",
    r"[Tt]ests alone": "only tests",
    r"alone[.,;:]": "only",
    r"less (?:those|all|the links)": "except, without",
    r"(?:comes|came) in(?! (?:an?|any|order|pairs|the order|their) )": "enters, entered",
    r"timeouts?": "expiry, expiries",
    r"off the grammar": "the grammar doesn't have",
    r"in the midst": "in the middle, half-way",
    r"however the journal goes on": "however the journal continues",
    r"[Bb]ehind (?:recovery|each step|steps|(?:the|this|its) journal|an update|a flush)": "after",
    r"holds? (?:of|behind) (?:a|an|all|any|each|every|its|it|the|these|those|this|which)": "true of",
    r"to be told|is to tell|was told so|what (?:it|they) tells?": "sent, printed, reported",
    r"(?:can|can't) be used": "usable, isn't usable",
    r"go(?:es)? over to": "is carried to",
    r"[Ww]hoever (?:is told|sends|asks|stamps)": "a switch that, code that",
    r"sees to it": "makes sure",
    r"answers? `(?:None|false|true|Ok|Err|Some)": "returns",
    r"so it is (?:with|of|for)": "the same is true of",
    r"(?:it|they) stands? (?:behind|before|beside|there|still|for)": "is, follows, means",
    r"[Ss]tands on": "depends on",
    r"stands? twice": "occurs twice, occur twice",
    r"(?:is|are|first) red": "is refused, isn't proved",
    r"but for (?:an?|the|its|those|that)": "except for",
    r"Let (?:an?|no|such|each|every|the)": "suppose",
    r"less (?:its|their)": "minus",
    r"by turns": "one after another",
    r"less those": "except those",
    r"counts? nowhere": "doesn't count",
    r"comes? to (?:its|an|the) end": "ends",
    r"stands? still": "doesn't change, stays",
    r"in its midst": "half-way",
    r"(?:goes|go) by the newest": "uses the newest",
    r"(?:is|are|proof) dear": "expensive",
    r"gives? way to": "takes precedence, said of the other one",
    r"tells? of": "reports, is about",
    r"anybody(?:'s)?": "any",
    r"[Rr]ight behind": "right after",
    r"taken as it stands": "taken as given",
    r"come of (?:the|it|that)": "follow from, come from",
    r"for (?:lack|want) of": "because there is no",
    r"stands": "is, follows, means",
    r"anew": "again",
    r"of then": "of that moment",
    r"tells? the proof": "for the proof, and what the contract says",
    r"asked first": "the primary first, said of targets",
    r"one below another": "on a path",
    r"that is read is sound": "for the proof, and which invariant the field yields",
    r"[Ww]rites? (?:it )?at the end": "appends",
    r"(?:times?|timed) out": "expires, expired",
    r"(?:None|false|no|exactly|Exactly)`? where": "if",
    r"behind a blank": "after a blank",
    r"[Tt]he judge": "the function, by its name",
    r"(?:is|are|was|were) said of": "says about",
    r"also (?:if|inside|in the middle)": "even if, even inside",
    r"dearer": "more expensive",
    r"in the place of (?:a|the)": "instead of",
    r"be had": "available",
    r"(?:each|every) other one": "its name: each other switch",
}


def pages():
    yield from (HOME / "README.md", HOME / "bench/README.md", HOME / "model/README.md")
    yield from sorted((HOME / "docs").glob("*.md"))
    yield from sorted((HOME / "desk").glob("**/*.md"))
    yield from sorted((HOME / "crates/examples/data").glob("*/README.md"))


def texts_of(lines):
    """The paragraphs, items and cells, each with the number of its first line."""
    start, parts, fenced = 0, [], False
    for number, line in enumerate([*lines, ""], 1):
        fenced ^= line.startswith("```")
        plain = line.strip() and not re.match(r"[|#!>]|```|    ", line) and not fenced
        if parts and (not plain or re.match(r"\s*(-|\d+\.) ", line)):
            yield start, " ".join(parts)
            parts = []
        if plain:
            start = start if parts else number
            parts.append(line.removeprefix("> ").strip())
        elif line.startswith("|"):
            yield from ((number, cell) for cell in line.strip("|").split("|"))


def dialect(lines):
    """The words of DIALECT in these lines, each with its line and the plain ones."""
    for number, line in enumerate(lines, 1):
        for words, plain in DIALECT.items():
            if found := re.search(rf"\b{words}\b", line):
                yield number, f"{found[0]!r}: say {plain}"


def long_sentences(lines):
    """The sentences and cells of more than LONGEST words, each with the line where its text begins."""
    for number, text in texts_of(lines):
        for sentence in re.split(r"(?<=[.?!])\s+", re.sub(r"`[^`]*`", "code", text)):
            if len(sentence.split()) > LONGEST:
                yield number, f"{len(sentence.split())} words: {sentence[:60]} .."


def comments():
    """The comments of each source, definition, proof and edit, and blanks for its other lines."""
    files = "src/**/*.rt", "specs/**/*.antt", "proofs/**/*.antt", "must-fail/*.edit"
    for path in sorted(path for name in files for path in (HOME / "crates").glob(f"*/{name}")):
        found = (re.match(r"(?:\s*(?://[/!]?|--)|#(?= )) ?(.*)", line)
                 for line in path.read_text().splitlines())
        yield path, [comment[1] if comment else "" for comment in found]


def helps():
    """The manual page, and the head of each script up to the end of its first text."""
    yield HOME / "docs/difane.1", (HOME / "docs/difane.1").read_text().splitlines()
    for folder in ("desk", "bench", "model", "checks"):
        for path in sorted((HOME / folder).iterdir()):
            text = path.read_text() if path.is_file() and path.suffix in ("", ".py") else ""
            yield path, "".join(text.partition('"""')[::2]).partition('"""')[0].splitlines()


def layout(page, lines):
    """The lines of a page that are too long, and the last one of a README that has too many."""
    for number, line in enumerate(lines, 1):
        if len(line) > COLUMNS and " " in line[:COLUMNS] and not re.match(r"[|!]|    ", line):
            yield number, f"{len(line)} columns"
    if page == HOME / "README.md" and len(lines) > README_LINES:
        yield len(lines), f"more than {README_LINES} lines"


def faults(paths):
    """What is wrong with these pages, or if there are none, with all that this script looks at."""
    for path, lines in () if paths else comments():
        yield from ((path, *why) for why in (*dialect(lines), *long_sentences(lines)))
    for path, lines in () if paths else helps():
        yield from ((path, *why) for why in dialect(lines))
    for page in paths or pages():
        lines = page.read_text().splitlines()
        of_page = (*layout(page, lines), *dialect(lines), *long_sentences(lines))
        yield from ((page, *why) for why in of_page)


def main():
    found = list(faults([Path(name) for name in sys.argv[1:]]))
    for path, number, why in found:
        print(f"{path}:{number}: {why}")
    sys.exit(len(found) > 0)


main()
