"""What the two programs share: what they are called with, and how a board and its two answers are printed."""
import os
import sys

from board import lines
from page import chromium
from reader import READER


def ask(program):
    """The number of boards and the seed. Ends with one line where they, the browser or the reader are missing."""
    words = sys.argv[1:]
    if len(words) != 2 or not all(word.isdecimal() for word in words) or int(words[0]) == 0:
        missing = f'usage: python3 oracle/browser/{program}.py BOARDS SEED'
    elif not chromium():
        missing = 'chromium is missing from the path (Debian: apt-get install chromium)'
    elif not os.access(READER, os.X_OK):
        missing = 'crates/reader/out/reader is missing: rt run in crates/reader builds it'
    else:
        return map(int, words)
    print(missing, file=sys.stderr)
    sys.exit(2)


def show(board, browser, reader):
    """The lines of the sheet and both answers, which leave gutters out."""
    for line in lines(board):
        print('   ', line)
    print('    browser', *(f'{size:g}' for size in browser))
    print('    reader ', *reader)
