#!/usr/bin/env python3
"""Finds lemmas of any kind of values above `base`: `checks/generic_lemmas.py [--list]`.

A lemma that binds a type, and whose statement names nothing of this repository, is about lists, options or tests in general: it belongs in
`base/proofs`, or in std. It ends with 1 if one is in another crate and isn't among those that may stay, each with its reason; or
if one of these no longer exists. With `--list` it lists those that may stay, too.
"""
import sys
from itertools import count

from crates import libraries
from lemmas import HOME, TOKEN, Reader, is_statement, own_modules

LOWEST = "base"
PATHS = "`cache_maker` doesn't depend on `base`, which would cost 82 paths"
STAYS = {
    "cache_maker.CacheWordPlaces.found_before": PATHS,
    "cache_maker.CacheWordPlaces.found_from": PATHS,
    "cache_maker.CacheWordPlaces.if_some": PATHS,
    "cache_maker.CacheWordPlaces.not_found": PATHS,
    "cache_maker.CacheWordPlaces.not_found_on_both_sides": PATHS,
    "placement.turns.front.Answers.made": "the answer of one goal, with the numbers of its function",
    "ternary.TernaryWords.cond_and": "`ternary` depends on no crate",
    "ternary.TernaryWords.implies_decides": "`ternary` depends on no crate",
    "ternary.TernaryWords.then_cond": "`ternary` depends on no crate",
}


def names_types(tokens):
    """Whether a signature binds a type."""
    return any(token == "Type" and before == ":" for before, token in zip(tokens, tokens[1:]))


def is_generic(reader, tokens):
    """Whether a statement is of values of any type, and names nothing of this repository."""
    said = reader.canonical(tokens, {}, count())
    return names_types(tokens) and is_statement(tokens) and not any(token.split(".")[0] in libraries() and "." in token for token in said)


def generic_lemmas(modules):
    """The lemmas of any kind of values in crates above the lowest one, by their names."""
    for module in modules.values():
        if module.crate != LOWEST:
            reader = Reader(modules, module)
            for name, _, text, size in module.signatures:
                if is_generic(reader, TOKEN.findall(text)):
                    yield f"{module.crate}.{module.name.partition('.')[2]}.{name}", module, size


def main():
    found = {name: (module, size) for name, module, size in generic_lemmas(own_modules())}
    for name, (module, size) in sorted(found.items()):
        if name not in STAYS or "--list" in sys.argv:
            print(f"{module.path.relative_to(HOME)}: {name.rpartition('.')[2]}, {size} lines{', stays: ' + STAYS[name] if name in STAYS else ''}")
    gone = STAYS.keys() - found.keys()
    for name in sorted(gone):
        print(f"no such lemma: {name}")
    wrong = found.keys() - STAYS.keys()
    print(f"{len(found)} lemmas of any kind above {LOWEST}, {len(wrong)} of them must not be there")
    sys.exit(bool(wrong or gone))


if __name__ == "__main__":
    main()
