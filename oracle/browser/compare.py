"""Holds the reader's sizes against the browser's on random boards, and says which rules are behind each difference.

    python3 oracle/browser/compare.py 2000 1      so many scaled boards and as many small ones, of columns and of rows, and the seed

Boards agree where every track is less than a dot apart. Ends with status 0 where, on every board, the known rules give the browser's sizes
and the paper's the reader's; with 1 where they do not, and the board is printed; with 2 where something is missing.
"""
import collections
import sys

sys.dont_write_bytecode = True
from boards import SORTS, boards
from command import ask, show
from page import browser_sizes, version
from reader import reader_sizes
from rules import SHARED, sizes
from why import ALL, NEAR, apart, rules_behind


class Count:
    """What one population of boards has shown."""

    def __init__(self):
        self.same = self.within = self.faults = 0
        self.most = 0
        self.rules, self.sorts, self.shared = collections.Counter(), collections.Counter(), collections.Counter()

    def take(self, sort, board, browser, reader):
        if sizes(board) != reader:
            self.faults += 1
            print("rules.py does not give the reader's sizes:")
            show(board, browser, reader)
        rules, far, left = rules_behind(board, browser), apart(reader, browser), apart(sizes(board, ALL), browser)
        self.most = max(self.most, left)
        self.same += rules == frozenset()
        self.within += bool(rules) and far < 1
        self.sorts[sort, far < 1] += 1
        if left >= NEAR:
            self.faults += 1
            print("the known rules do not give the browser's sizes:")
            show(board, browser, reader)
        elif rules:
            self.rules[', '.join(sorted(rules)), far < 1] += 1
        if rules == frozenset():
            self.shared.update(rule for rule in SHARED if apart(sizes(board, {rule}), browser) >= 1)

    def tell(self, name, count):
        agree = self.same + self.within
        print(f'{name} boards: {count}, {agree} agree, {count - agree} differ; {1000 * agree / count:.1f} in a thousand agree')
        print(f'  the same: {self.same}; less than a dot apart: {self.within}')
        print(f'  with all known rules taken as the browser has them: at most {self.most:.3f} dots apart')
        print('  rules behind what is not the same (less than a dot apart, a dot or more):')
        for rules in sorted({rules for rules, _ in self.rules}, key=lambda rules: (rules.count(','), rules)):
            print(f'    {rules}: {self.rules[rules, True]}, {self.rules[rules, False]}')
        by_sort = (f'{sort} {self.sorts[sort, True]} of {self.sorts[sort, True] + self.sorts[sort, False]}' for sort in SORTS)
        print('  agreeing by sort of tracks:', '; '.join(by_sort))
        print('  rules that decided a board and that the browser shares:', '; '.join(f'{rule} {self.shared[rule]}' for rule in SHARED))


def main():
    count, seed = ask('compare')
    print(f'seed {seed}, {version()}')
    faults = 0
    for name in ('scaled', 'small', 'scaled row', 'small row'):
        made = boards(count, seed, 'scaled' in name, 'row' in name)
        laid = [board for _, board in made]
        seen = Count()
        for (sort, board), browser, reader in zip(made, browser_sizes(laid), reader_sizes(laid), strict=True):
            seen.take(sort, board, browser, reader)
        seen.tell(name, count)
        faults += seen.faults
    sys.exit(faults > 0)


main()
