"""How far two answers are apart, and which rules are behind a difference."""
import itertools

from rules import DIFFERENT, sizes

# Chromium cuts each share to a 64th of a dot and prints six digits: less than this comes together on a board of these sizes.
NEAR = 0.125
ALL = frozenset(DIFFERENT)
SETS = [frozenset(rules) for count in range(len(ALL) + 1) for rules in itertools.combinations(DIFFERENT, count)]


def apart(some, others):
    """The most dots that a track is apart."""
    return max(abs(float(one) - float(other)) for one, other in zip(some, others, strict=True))


def rules_behind(board, browser):
    """The fewest rules which, taken otherwise, give the browser's sizes: none where they are the paper's, None where no rules do."""
    return next((rules for rules in SETS if apart(sizes(board, rules), browser) < NEAR), None)
