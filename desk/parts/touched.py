"""Which words a change of a policy touches: those of the rows that it removes and adds."""
from . import places  # it puts the model on the path

import plan_model

MOST_TOUCHED = 16  # more words are told to switches as the one that holds each header
EVERYTHING = [(0, 0)]


def touched_words(change, rows):
    """What a change of these rows touches."""
    touched = [rule for rule in rows if rule.priority in change.removed] + change.added
    rules, count = plan_model.rules_of([rule.fields for rule in touched])
    return [word for word, *_ in rules[:count]] if count <= MOST_TOUCHED else EVERYTHING


def meets(text, word):
    """Whether some header is in both words; the first is spelled as journals do."""
    value, mask = (int(half, 16) for half in text.split("/"))
    return (value ^ word[0]) & mask & word[1] == 0
