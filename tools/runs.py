#!/usr/bin/env python3
"""runs.py PROGRAM: runs the program with the words and on the inputs that stand here, and compares how each run ends with
what it has to be: its status and the word for it on standard error, all that it writes, and how many bytes of its input it
leaves.

The tables have day files, journals, commands behind a journal, generated days, and words that are no form. The input of each
is a file, and comes again in pieces of seven bytes where the form reads. The output takes all, and then just fronts of a few
lengths: what is written is cut there, and the status is a write fault's, or stays that of a verdict. Of each form that reads,
an input that fails at once or behind some bytes is a read fault, and nothing is written. Inputs are as long as they may be, and
then one byte, record, line or command longer; and 200,000 commands are refused. A long journal is put in few pieces; and the words
are those behind the program's name, in their order.
The last line is 'N passed, M failed'."""

import contextlib
import fcntl
import os
import resource
import signal
import socket
import subprocess
import sys
import tempfile
import tty
from typing import NamedTuple

FINE, USAGE, READ_FAULT, WRITE_FAULT, TOO_LONG, WRONG, NO_OPENING, UNREADABLE = 0, 2, 3, 4, 5, 7, 8, 9

# What stands on standard error.
TOLD = {
    FINE: b'',
    USAGE: b'usage\n',
    READ_FAULT: b'read fault\n',
    WRITE_FAULT: b'write fault\n',
    TOO_LONG: b'too long\n',
    WRONG: b'wrong\n',
    NO_OPENING: b'no opening\n',
    UNREADABLE: b'unreadable\n',
}

# After so many seconds the system ends a run.
PATIENCE = 60

# How many bytes a small pipe holds, at least.
PAGE = 4_096


class Case(NamedTuple):
    """What is shown, the words and the input of a run, and the status and the text that are wanted."""
    name: str
    words: tuple
    given: bytes
    status: int
    text: bytes

    def reads(self):
        """Whether the input is read. It is read to its end where it is."""
        return self.status != USAGE and self.words[0] not in ('gen', '--help', '--version')


class Ended(NamedTuple):
    """How a run ended; of an input that is no file, nobody asks how much is left."""
    status: int
    text: bytes
    told: bytes
    left: int | None = None

    def __str__(self):
        left = '' if self.left is None else f', {self.left} bytes left'
        return f'status {self.status}, {shown(self.told)} on standard error, {shown(self.text)} written{left}'


def shown(text):
    """A text for a line of a failure."""
    return repr(text) if len(text) <= 240 else f'{text[:120]!r}..{text[-120:]!r} of {len(text)} bytes'


def table(words, *rows):
    """The cases that are run with these words; a row has a name, an input, a status and a text."""
    return [Case(f'{words[0]}: {name}', words, *row) for name, *row in rows]


# Openings.

OPENING = b'2024-03-04 00:00,open,2024-03,1,15\n'

# Each is written as it is.
OPENINGS = {
    'an opening': OPENING,
    'a leap day': b'2024-02-29 00:00,open,2024-02,2,1\n',
    'the last window of 24 months, and 60 minutes to answer': b'2098-01-01 00:00,open,2098-01,24,60\n',
    'the last minute of 2099': b'2099-12-31 23:59,open,2099-12,1,15\n',
}

# Each is written as the opening above.
OTHERWISE = {
    'an opening without a line feed': b'2024-03-04 00:00,open,2024-03,1,15',
    'an opening among empty lines': b'\n\r\n2024-03-04 00:00,open,2024-03,1,15\r\n\n',
    'an opening with a carriage return': b'2024-03-04 00:00,open,2024-03,1,15\r',
    'an opening with a quoted field': b'2024-03-04 00:00,"open",2024-03,1,15\n',
    'an opening behind a byte order mark': b'\xef\xbb\xbf2024-03-04 00:00,open,2024-03,1,15\n',
}

NO_OPENINGS = {
    'a 29th of February without a leap year': b'2023-02-29 00:00,open,2023-02,1,15\n',
    'a 13th month in the minute': b'2024-13-04 00:00,open,2024-03,1,15\n',
    'a month of one digit in the minute': b'2024-3-04 00:00,open,2024-03,1,15\n',
    'an hour 24': b'2024-03-04 24:00,open,2024-03,1,15\n',
    'a minute before the window': b'2024-02-29 23:59,open,2024-03,1,15\n',
    'a minute behind the window': b'2024-04-01 00:00,open,2024-03,1,15\n',
    'a word with a capital letter': b'2024-03-04 00:00,Open,2024-03,1,15\n',
    'an empty word': b'2024-03-04 00:00,,2024-03,1,15\n',
    'a window from a 13th month': b'2024-03-04 00:00,open,2024-13,1,15\n',
    'a window from a month of one digit': b'2024-03-04 00:00,open,2024-3,1,15\n',
    'a window that ends in 2100': b'2099-12-01 00:00,open,2099-12,2,15\n',
    'a window in 1999': b'1999-12-31 00:00,open,1999-12,1,15\n',
    '0 months': b'2024-03-04 00:00,open,2024-03,0,15\n',
    '25 months': b'2024-03-04 00:00,open,2024-03,25,15\n',
    '257 months': b'2024-03-04 00:00,open,2024-03,257,15\n',
    'months with a leading zero': b'2024-03-04 00:00,open,2024-03,01,15\n',
    'months with a sign': b'2024-03-04 00:00,open,2024-03,+1,15\n',
    '0 minutes to answer': b'2024-03-04 00:00,open,2024-03,1,0\n',
    '61 minutes to answer': b'2024-03-04 00:00,open,2024-03,1,61\n',
    'minutes to answer with a leading zero': b'2024-03-04 00:00,open,2024-03,1,015\n',
    'minutes to answer behind a blank': b'2024-03-04 00:00,open,2024-03,1, 15\n',
    'minutes to answer that are no text': b'2024-03-04 00:00,open,2024-03,1,\xff\n',
    'four fields': b'2024-03-04 00:00,open,2024-03,1\n',
    'an empty sixth field': b'2024-03-04 00:00,open,2024-03,1,15,\n',
    'a first edition in a sixth field': b'2024-03-04 00:00,open,2024-03,1,15,1\n',
    'fourteen fields': b'2024-03-04 00:00,open,2024-03,1,15,1,2,3,4,5,6,7,8,9\n',
    'an empty day file': b'',
    'empty lines alone': b'\n\r\n\n',
    'a command before the opening': b'2024-03-04 00:01,enrol,101,E,HOM,-\n' + OPENING,
}

OPENED = [
    *table(('replay',), *((name, day, FINE, day) for name, day in OPENINGS.items())),
    *table(('replay',), *((name, day, FINE, OPENING) for name, day in OTHERWISE.items())),
    *table(('replay',), *((name, day, NO_OPENING, b'') for name, day in NO_OPENINGS.items())),
]

# Day files with commands.

FIRST_OFFER = b"""\
2024-03-04 00:00,open,2024-03,1,15
2024-03-04 00:01,enrol,101,E,HOM,-
2024-03-04 00:01,board,P1,pool,HOM
2024-03-04 00:02,list,101,P1
2024-03-04 00:03,vacancy,12,E,-,HOM,2024-03-04 08:00,600,0,P1
2024-03-04 00:04,next,12
"""

FIRST_OFFER_JOURNAL = b"""\
2024-03-04 00:00,open,2024-03,1,15
0|2024-03-04 00:01,enrol,101,E,HOM,-|2024-03-04 00:01|done
0|2024-03-04 00:01,board,P1,pool,HOM|2024-03-04 00:01|done
0|2024-03-04 00:02,list,101,P1|2024-03-04 00:02|done
0|2024-03-04 00:03,vacancy,12,E,-,HOM,2024-03-04 08:00,600,0,P1|2024-03-04 00:03|done
0|2024-03-04 00:04,next,12|2024-03-04 00:04|offered 101 P1 1
"""

NOBODY_LISTED = b"""\
2024-03-04 00:00,open,2024-03,1,15
2024-03-04 00:01,enrol,101,E,HOM,-
2024-03-04 00:01,board,P1,pool,HOM
2024-03-04 00:03,vacancy,12,E,-,HOM,2024-03-04 08:00,600,0,P1
2024-03-04 00:04,next,12
"""

NOBODY_LISTED_JOURNAL = b"""\
2024-03-04 00:00,open,2024-03,1,15
0|2024-03-04 00:01,enrol,101,E,HOM,-|2024-03-04 00:01|done
0|2024-03-04 00:01,board,P1,pool,HOM|2024-03-04 00:01|done
0|2024-03-04 00:03,vacancy,12,E,-,HOM,2024-03-04 08:00,600,0,P1|2024-03-04 00:03|done
0|2024-03-04 00:04,next,12|2024-03-04 00:04|unfilled 0
"""

REPLAYS = [
    *table(
        ('replay',),
        ('a first offer', FIRST_OFFER, FINE, FIRST_OFFER_JOURNAL),
        ('nobody is listed', NOBODY_LISTED, FINE, NOBODY_LISTED_JOURNAL),
        ('a word that no command has', OPENING + b'2024-03-04 00:01,nextt,12\n', UNREADABLE, b'unreadable 2 2\n'),
        ('a vacancy 0', OPENING + b'2024-03-04 00:01,next,0\n', UNREADABLE, b'unreadable 2 3\n'),
        ('a second opening behind an empty line', OPENING + b'\n' + OPENING, UNREADABLE, b'unreadable 2 2\n'),
    ),
    *table(('serve', 'nobody'), ('a caller whose file is not there', FIRST_OFFER, FINE, FIRST_OFFER_JOURNAL)),
]

# Forecasts.


def supposing(count):
    """The journal of the first offer, its last entries supposed."""
    lines = FIRST_OFFER_JOURNAL.splitlines(keepends=True)
    return b''.join([*lines[:6 - count], b'supposed %d\n' % count, *lines[6 - count:]])


# Two who rest till 07:30, the first of them also from too long a tour, to 09:00; nobody else is on the board.
RESTING = b"""\
2024-03-04 00:00,open,2024-03,1,15
2024-03-04 00:01,board,P1,pool,HOM
2024-03-04 00:01,enrol,101,E,HOM,-
2024-03-04 00:01,enrol,102,E,HOM,-
2024-03-04 00:01,enrol,103,E,HOM,-
2024-03-04 22:00,past,101,duty,2024-03-04 08:00
2024-03-04 22:00,past,101,relieve,2024-03-04 20:00
2024-03-04 22:00,past,101,final,2024-03-04 21:30,HOM
2024-03-04 22:00,past,102,duty,2024-03-04 12:00
2024-03-04 22:00,past,102,final,2024-03-04 21:30,HOM
2024-03-04 22:00,list,101,P1
2024-03-04 22:00,list,102,P1
2024-03-04 22:01,vacancy,1,E,-,HOM,2024-03-05 10:30,600,0,P1
2024-03-04 22:01,vacancy,2,E,-,HOM,2024-03-05 07:00,600,0,P1
2024-03-04 22:01,vacancy,3,E,-,HOM,2024-03-04 22:01,600,0,P1
2024-03-04 22:02,off,102
2024-03-04 22:03,on,102
"""

# From when on nothing bars somebody from a vacancy.
TIMES = [
    (('when', '1', '101'), b'clear 2024-03-05 09:00\n'),
    (('when', '1', '102'), b'clear 2024-03-05 07:30\n'),
    (('when', '2', '101'), b'barred 21103(a)(3) 2024-03-05 07:30\n'),
    (('when', '3', '102'), b'lapsed 2024-03-04 22:01\n'),
    (('when', '1', '103'), b'not listed\n'),
    (('when', '4', '101'), b'unknown vacancy\n'),
    (('when', '4', '104'), b'unknown vacancy\n'),
    (('when', '1', '104'), b'unknown person\n'),
    (('when', '3', '103'), b'lapsed 2024-03-04 22:01\n'),
    (('when', '9999999', '9999999'), b'unknown vacancy\n'),
]

FORECASTS = [
    *(Case(f'forecast {count}', ('forecast', str(count)), FIRST_OFFER, FINE, supposing(min(count, 5))) for count in (0, 1, 2, 5, 6, 200_000)),
    Case('forecast: no commands', ('forecast', '1'), OPENING, FINE, OPENING + b'supposed 0\n'),
    *(Case(' '.join(words), words, RESTING, FINE, text) for words, text in TIMES),
    Case('when: at once', ('when', '12', '101'), FIRST_OFFER[:FIRST_OFFER.rindex(b'2024')], FINE, b'clear 2024-03-04 00:03\n'),
    *(
        Case(f'{words[0]}: {name}', words, day, status, text)
        for words in [('forecast', '1'), ('when', '1', '1')]
        for name, day, status, text in [
            ('an empty day file', b'', NO_OPENING, b''),
            ('a field that is missing', OPENING + b'2024-03-04 00:01,next\n', UNREADABLE, b'unreadable 2 3\n'),
        ]
    ),
]

# Tallies.


def tally(moment, **counts):
    """The text of a tally; what it doesn't tell is 0."""
    sorts = ('commands', 'done', 'offered', 'unfilled', 'denied', 'read', 'refused')
    return ''.join(f'{sort} {counts.get(sort, 0)}\n' for sort in sorts).encode() + b'moment ' + moment + b'\n'


# Someone listed, of a craft that isn't asked for, and someone behind them who is free.
EACH_SORT = b"""\
2024-03-04 00:00,open,2024-03,1,15
2024-03-04 00:01,board,P1,pool,HOM
2024-03-04 00:01,board,X1,extra,HOM
2024-03-04 00:01,enrol,101,C,HOM,-
2024-03-04 00:01,enrol,102,E,HOM,-
2024-03-04 00:01,enrol,103,E,HOM,-
2024-03-04 00:01,list,101,P1
2024-03-04 00:01,list,102,P1
2024-03-04 00:01,list,103,P1
2024-03-04 00:02,vacancy,1,E,-,HOM,2024-03-04 08:00,600,0,P1
2024-03-04 00:02,vacancy,2,B,-,HOM,2024-03-04 08:00,600,0,P1
2024-03-04 00:03,offer,1,101
2024-03-04 00:03,offer,1,103
2024-03-04 00:03,explain,1,101
2024-03-04 00:03,explain,1,102
2024-03-04 00:03,next,2
2024-03-04 00:03,next,1
2024-03-04 00:04,at,P1,1
2024-03-04 00:04,at,P1,4
2024-03-04 00:04,hours,101,2024-03
2024-03-04 00:04,vac,1
2024-03-04 00:04,vac,3
2024-03-04 00:04,next,1
2024-05-04 00:04,next,1
"""

EACH_SORT_TALLY = tally(b'2024-03-04 00:04', commands=23, done=10, offered=1, unfilled=1, denied=3, read=5, refused=3)
SET_UP_TALLY = tally(b'2024-01-01 00:00', commands=64, done=64)

TALLIES = [
    *table(
        ('tally',),
        ('no commands', OPENING, FINE, tally(b'2024-03-04 00:00')),
        ('a first offer', FIRST_OFFER, FINE, tally(b'2024-03-04 00:04', commands=5, done=4, offered=1)),
        ('answers of each sort', EACH_SORT, FINE, EACH_SORT_TALLY),
        ('an empty day file', b'', NO_OPENING, b''),
        ('a field that is missing', OPENING + b'2024-03-04 00:01,next\n', UNREADABLE, b'unreadable 2 3\n'),
    ),
    # Days that only set their desk up. The input that they leave is there to be left.
    *(
        Case(f'a generated day, {" ".join(words)}', words, OPENING, FINE, SET_UP_TALLY)
        for words in [
            ('gen', '64', '0'),
            ('gen', '64', '18446744073709551615'),
            ('gen', '64', '7', '2'),
            ('gen', '64', '0', '2'),
        ]
    ),
]

# Audits.

# Someone's number is told wrong by the first entry.
WRONG_JOURNAL = b"""\
2024-03-04 00:00,open,2024-03,1,15
0|2024-03-04 00:01,at,P1,1|2024-03-04 00:01|seen 101
0|2024-03-04 00:01,nothing|2024-03-04 00:01|done
"""

TOLD_WRONG = b"""\
wrong 2
written 2024-03-04 00:01|seen 101
right 2024-03-04 00:01|unknown board P1
"""

AUDITS = table(
    ('audit',),
    ('a journal without entries', OPENING, FINE, b'legal 0\n'),
    ('a journal of a first offer', FIRST_OFFER_JOURNAL, FINE, b'legal 5\n'),
    ('a wrong entry before one that is none', WRONG_JOURNAL, WRONG, TOLD_WRONG),
    ('a line that is no entry', OPENING + b'2024-03-04 00:01,vac,1\n', UNREADABLE, b'unreadable 2\n'),
    ('an opening without its line feed', OPENING.rstrip(), NO_OPENING, b''),
    ('an empty journal', b'', NO_OPENING, b''),
)

# Journals that go on.

ACCEPT = b'2024-03-04 00:05,accept,12,101\n'
ACCEPTED = b'0|2024-03-04 00:05,accept,12,101|2024-03-04 00:05|done\n'

# A journal of the second edition.
HELD_JOURNAL = b"""\
2024-03-04 00:00,open,2024-03,1,15,2
0|2024-03-04 00:01,board,P1,pool,HOM|2024-03-04 00:01|done
0|2024-03-04 00:01,enrol,101,E,HOM,-|2024-03-04 00:01|done
0|2024-03-04 00:01,enrol,102,E,HOM,-|2024-03-04 00:01|done
0|2024-03-04 00:02,list,101,P1|2024-03-04 00:02|done
0|2024-03-04 00:02,list,102,P1|2024-03-04 00:02|done
0|2024-03-04 00:03,vacancy,1,E,-,HOM,2024-03-04 08:00,600,0,P1|2024-03-04 00:03|done
0|2024-03-04 00:03,vacancy,2,E,-,HOM,2024-03-04 08:00,600,0,P1|2024-03-04 00:03|done
0|2024-03-04 00:03,vacancy,3,E,-,HOM,2024-03-04 10:00,600,0,P1|2024-03-04 00:03|done
0|2024-03-04 00:10,next,1|2024-03-04 00:10|offered 101 P1 1
0|2024-03-04 00:10,decline,1,101|2024-03-04 00:10|done
0|2024-03-04 00:10,explain,1,101|2024-03-04 00:10|denied B7
0|2024-03-04 00:10,explain,2,101|2024-03-04 00:10|denied B8 2024-03-04 08:10
0|2024-03-04 00:10,next,2|2024-03-04 00:10|offered 102 P1 1
0|2024-03-04 08:09,explain,3,101|2024-03-04 08:09|denied B8 2024-03-04 08:10
0|2024-03-04 08:10,next,3|2024-03-04 08:10|offered 101 P1 2
"""

WRONG_OFFER = FIRST_OFFER_JOURNAL.replace(b'offered 101', b'offered 102') + b'+\n' + ACCEPT

TOLD_WRONG_OFFER = b"""\
wrong 6
written 2024-03-04 00:04|offered 102 P1 1
right 2024-03-04 00:04|offered 101 P1 1
"""

ONE_COMMAND = OPENING + b'+\n2024-03-04 00:01,vac,1\n'
ONE_ENTRY = OPENING + b'0|2024-03-04 00:01,vac,1|2024-03-04 00:01|unknown vacancy\n'

# What stands behind the journal of the first offer, and the entries that are written behind it.
MORE_COMMANDS = {
    'nothing behind the journal': (b'', b''),
    'no commands behind the plus': (b'+\n', b''),
    'a command behind the plus': (b'+\n' + ACCEPT, ACCEPTED),
    'a command without its line feed': (b'+\n' + ACCEPT.rstrip(), ACCEPTED),
    'a command behind a byte order mark': (b'+\n\xef\xbb\xbf' + ACCEPT, ACCEPTED),
}

# What stands behind it, and the line that tells what is wrong there.
WRONG_COMMANDS = {
    'a word that no command has': (b'+\n2024-03-04 00:05,acept,12,101\n', b'unreadable 1 2\n'),
    'a second plus': (b'+\n' + ACCEPT + b'+\n', b'unreadable 2 1\n'),
    'a plus without its line feed': (b'+', b'unreadable 7\n'),
    'two pluses in a line': (b'++\n', b'unreadable 7\n'),
    'a plus behind a blank': (b' +\n', b'unreadable 7\n'),
    'a plus with a carriage return': (b'+\r\n', b'unreadable 7\n'),
    'a plus at the end of a line': (b'0|2024-03-04 00:05,accept,12,+\n' + ACCEPT, b'unreadable 7\n'),
}


def cut_behind(journal, kept):
    """The journal's first lines, and behind a line with a plus the commands of the others."""
    lines = journal.splitlines(keepends=True)
    return b''.join([*lines[:kept], b'+\n', *(line.split(b'|')[1] + b'\n' for line in lines[kept:])])


CONTINUES = table(
    ('continue',),
    *(
        (name, FIRST_OFFER_JOURNAL + behind, FINE, FIRST_OFFER_JOURNAL + entries)
        for name, (behind, entries) in MORE_COMMANDS.items()
    ),
    *((name, FIRST_OFFER_JOURNAL + behind, UNREADABLE, told) for name, (behind, told) in WRONG_COMMANDS.items()),
    *((f'a journal cut behind line {kept}', cut_behind(HELD_JOURNAL, kept), FINE, HELD_JOURNAL) for kept in range(1, 17)),
    ('one command', ONE_COMMAND, FINE, ONE_ENTRY),
    ('a journal that offers to another', WRONG_OFFER, WRONG, TOLD_WRONG_OFFER),
    ('an empty input', b'', NO_OPENING, b''),
    ('a plus before everything', b'+\n' + ACCEPT, NO_OPENING, b''),
    ('a byte order mark before the journal', b'\xef\xbb\xbf' + OPENING + b'+\n', NO_OPENING, b''),
)

# Records of tours.

# Twelve hours on duty, and an hour and a half in limbo; the day is told before the person is listed. The last line is no answer
# of a desk that was told so, which nobody asks here.
LONG_TOUR = b"""\
2024-03-04 00:00,open,2024-03,1,15
0|2024-03-04 00:01,enrol,101,E,HOM,-|2024-03-04 00:01|done
0|2024-03-04 22:00,past,101,duty,2024-03-04 08:00|2024-03-04 22:00|done
0|2024-03-04 22:00,past,101,relieve,2024-03-04 20:00|2024-03-04 22:00|done
0|2024-03-04 22:00,past,101,final,2024-03-04 21:30,HOM|2024-03-04 22:00|done
0|2024-03-04 22:00,past,101,duty,2024-03-04 23:00|2024-03-04 22:00|used
"""

LONG_RECORD = (
    b'[{"capped":90,"end":"2024-03-04 21:30","excess":90,"limbo":90,"on_duty":720,"over":false,"person":101,'
    b'"place":"HOM","start":"2024-03-04 08:00","vacancy":0}]\n'
)

CUT_ENTRY = OPENING + b'0|2024-03-04 00:01,vac,1|2024-03-04 00:01|done'

TOURS = [
    *table(
        ('record', '101'),
        ('a long tour of the person', LONG_TOUR, FINE, LONG_RECORD),
        ('an entry without its line feed', CUT_ENTRY, UNREADABLE, b'unreadable 2\n'),
    ),
    *table(('record', '7'), ('a long tour of another person', LONG_TOUR, FINE, b'[]\n')),
    *table(
        ('excess',),
        ('a long tour', LONG_TOUR, FINE, LONG_RECORD),
        ('a journal without entries', OPENING, FINE, b'[]\n'),
        ('an empty journal', b'', NO_OPENING, b''),
        ('an empty line', OPENING + b'\n', UNREADABLE, b'unreadable 2\n'),
    ),
]

# Words.

NO_FORMS = [
    (),
    ('replay', 'now'),
    ('Replay',),
    ('replay ',),
    ('tally', 'tally'),
    ('replay', 'tally'),
    ('serve',),
    ('--help', '--help'),
    ('--version', '--version'),
    ('gen',),
    ('gen', '64'),
    ('gen', '63', '0'),
    ('gen', '20001', '0'),
    ('gen', '064', '0'),
    ('gen', '+64', '0'),
    ('gen', '64', ''),
    ('gen', '64', '00'),
    ('gen', '64', '-1'),
    ('gen', '64', '18446744073709551616'),
    ('gen', '64', '0', '1'),
    ('gen', '10001', '0', '2'),
    ('gen', '64', '0', '2', '2'),
    ('record',),
    ('record', '0'),
    ('record', '10000000'),
    ('excess', '101'),
    ('forecast',),
    ('forecast', '-1'),
    ('forecast', '02'),
    ('forecast', '200001'),
    ('forecast', '2', '2'),
    ('when',),
    ('when', '1'),
    ('when', '0', '101'),
    ('when', '1', '0'),
    ('when', '10000000', '101'),
    ('when', '1', '10000000'),
    ('when', '1', '101', '1'),
]

# The name by which the program is called, which is no word of the form, and the words behind it.
NAMES = [
    ((), (), USAGE, b''),
    (('crewdesk',), (), USAGE, b''),
    (('replay',), (), USAGE, b''),
    (('crewdesk',), ('replay',), FINE, OPENING),
    (('tally',), ('replay',), FINE, OPENING),
    (('crewdesk',), ('crewdesk', 'replay'), USAGE, b''),
]


def example(name):
    """What an example writes."""
    with open(os.path.join(os.path.dirname(__file__), '..', 'examples', name, 'stdout'), 'rb') as text:
        return text.read()


WORDS = [
    Case('help', ('--help',), OPENING, FINE, example('help')),
    Case('version', ('--version',), OPENING, FINE, example('version')),
    *(Case(f'words that are no form: {words}', words, OPENING, USAGE, b'') for words in NO_FORMS),
]

CASES = [*OPENED, *REPLAYS, *FORECASTS, *TALLIES, *AUDITS, *CONTINUES, *TOURS, *WORDS]

# What is read by each form that reads. It ends well where the input does not fail.
READ = [
    (('replay',), OPENING),
    (('replay',), FIRST_OFFER),
    (('serve', 'nobody'), FIRST_OFFER),
    (('tally',), FIRST_OFFER),
    (('forecast', '2'), FIRST_OFFER),
    (('when', '12', '101'), FIRST_OFFER),
    (('audit',), FIRST_OFFER_JOURNAL),
    (('continue',), ONE_COMMAND),
    (('record', '101'), LONG_TOUR),
    (('excess',), LONG_TOUR),
]

# Long inputs.


def refused(count):
    """A day of so many commands that are stated behind its window, and its journal."""
    command = b'2025-01-01 00:00,next,12'
    return OPENING + (command + b'\n') * count, OPENING + (b'0|' + command + b'|2024-03-04 00:00|outside window\n') * count


LONG_DAY, LONG_JOURNAL = refused(2_000)


def long_cases():
    """Inputs that are as long as they may be, and those that are longer. Of a journal with as many lines as it may have the first
    is no opening, and of as many records or commands as there may be the first is none."""
    most_bytes = b'\n' * (16_777_216 - len(OPENING)) + OPENING
    most_records = OPENING + b'x\n' * 200_000
    most_lines = b'\n' * 515_001
    most_commands = OPENING + b'+\n' + b'x\n' * 515_000
    yield from table(
        ('replay',),
        ('16,777,216 bytes', most_bytes, FINE, OPENING),
        ('16,777,217 bytes', b'\n' + most_bytes, TOO_LONG, b''),
        ('200,001 records', most_records, UNREADABLE, b'unreadable 2 1\n'),
        ('200,002 records', most_records + b'x\n', TOO_LONG, b''),
        ('200,000 refused commands', refused(200_000)[0], FINE, refused(200_000)[1]),
    )
    for words in ('audit',), ('record', '1'), ('excess',):
        yield from table(
            words,
            ('515,001 lines', most_lines, NO_OPENING, b''),
            ('515,002 lines, the last without its line feed', most_lines + b'x', TOO_LONG, b''),
        )
    yield from table(
        ('continue',),
        ('515,001 lines, and others behind the plus', most_lines + b'+\n\n\n', NO_OPENING, b''),
        ('515,002 lines', most_lines + b'\n+\n', TOO_LONG, b''),
        ('515,000 commands', most_commands, UNREADABLE, b'unreadable 1 1\n'),
        ('515,001 commands', most_commands + b'x\n', TOO_LONG, b''),
    )


# The sizes of the pieces in which a text is put, through a buffer of 65,536 bytes. Of a replay the opening, 1,110 lines of 59 bytes and the first two bytes of the
# next fill the first, since a record is not parted; of a forecast the opening and 1,109 lines of 59 bytes, with one of 14 bytes among them; the others fit the
# second. A journal that goes on is put first, and then the lines behind it.
PIECES = [
    ('the opening', ('replay',), OPENING, [35]),
    ('the journal of 2,000 refused commands', ('replay',), LONG_DAY, [65_527, 52_508]),
    ('the same with 1,000 of them supposed', ('forecast', '1000'), LONG_DAY, [65_480, 52_569]),
    ('a journal that goes on', ('continue',), ONE_COMMAND, [35, 58]),
]

# Sources and sinks.


def packets(given, size):
    """A source that gives so many bytes at a read."""
    source, ours = socket.socketpair(socket.AF_UNIX, socket.SOCK_SEQPACKET)
    with ours:
        ours.setsockopt(socket.SOL_SOCKET, socket.SO_SNDBUF, 1 << 20)
        ours.settimeout(PATIENCE)
        for start in range(0, len(given), size):
            ours.send(given[start:start + size])
    return source


def failing_once(given):
    """A source that fails at its first read, and then gives these bytes: a socket whose other end left what was sent to it."""
    source, ours = socket.socketpair(socket.AF_UNIX, socket.SOCK_SEQPACKET)
    source.send(b'?')
    with ours:
        ours.send(given)
    return source


def failing_behind(given):
    """A source that gives these bytes, and then fails: a terminal whose other side is closed."""
    source, ours = os.openpty()
    tty.setraw(ours)
    with open(ours, 'wb', buffering=0) as terminal:
        terminal.write(given)
    return open(source, 'rb', buffering=0)


def fronts(size):
    """Of a text of this size, how much is taken of it: nothing, a few bytes, all but one, and all."""
    return sorted({count for count in (0, 4, 11, 16, 20, 30, 32, 35, 65_525) if count < size} | {size - 1, size})


class Runs:
    """Runs of the program in a folder, and how many checks passed and failed."""

    def __init__(self, program, folder):
        self.program = program
        self.folder = folder
        self.passed = 0
        self.failed = 0

    def check(self, name, wanted, came):
        """Counts a check, and says where it failed."""
        if wanted == came:
            self.passed += 1
        else:
            self.failed += 1
            print(f'runs: {name}: wanted: {wanted}; came: {came}')

    def file(self, name):
        """The path of a file in the folder."""
        return os.path.join(self.folder, name)

    @contextlib.contextmanager
    def source_of(self, given):
        """A file of these bytes, at its front."""
        with open(self.file('input'), 'w+b') as source:
            source.write(given)
            source.seek(0)
            yield source

    def start(self, words, source, sink, limit=None, name=('crewdesk',)):
        """Calls the program with these words. Where there is a limit, a file takes so many bytes, and then a write fails."""
        def prepare():
            signal.alarm(PATIENCE)
            if limit is not None:
                signal.signal(signal.SIGXFSZ, signal.SIG_IGN)
                resource.setrlimit(resource.RLIMIT_FSIZE, (limit, limit))
        return subprocess.Popen((*name, *words), executable=self.program, stdin=source, stdout=sink, stderr=subprocess.PIPE,
                                cwd=self.folder, preexec_fn=prepare)

    def run(self, words, source, **how):
        """How the program ends on a source, with a new file as its output."""
        with open(self.file('output'), 'w+b') as sink:
            child = self.start(words, source, sink, **how)
            told = child.communicate()[1]
            sink.seek(0)
            return Ended(child.returncode, sink.read(), told)

    def run_on_file(self, words, given, **how):
        """How it ends on a file of these bytes, and how many are left: it moves the place in the file that is asked here."""
        with self.source_of(given) as source:
            ended = self.run(words, source, **how)
            return ended._replace(left=len(given) - os.lseek(source.fileno(), 0, os.SEEK_CUR))

    def show(self, case, limit=None):
        """The case on a file, and where there is a limit, with an output that takes just a front of what is written."""
        is_cut = limit is not None and limit < len(case.text)
        status = WRITE_FAULT if is_cut and case.status == FINE else case.status
        wanted = Ended(status, case.text[:limit], TOLD[status], 0 if case.reads() else len(case.given))
        name = case.name if limit is None else f'{case.name}; an output that takes {limit} bytes'
        self.check(name, wanted, self.run_on_file(case.words, case.given, limit=limit))

    def show_fronts(self, case):
        """The case with outputs that take fronts of what is written."""
        for limit in fronts(len(case.text)):
            self.show(case, limit)

    def show_pieces_read(self, case, size):
        """The case on an input that comes in pieces of this size."""
        with packets(case.given, size) as source:
            came = self.run(case.words, source)
        self.check(f'{case.name}; an input in pieces of {size} bytes', Ended(case.status, case.text, TOLD[case.status]), came)

    def show_read_fault(self, name, words, source):
        """A source that fails: nothing is written."""
        self.check(f'{" ".join(words)}: {name}', Ended(READ_FAULT, b'', TOLD[READ_FAULT]), self.run(words, source))

    def show_read_faults(self, words, given):
        """Inputs that fail at the first read, for good or once, and inputs that fail behind some of these bytes."""
        folder = os.open(self.folder, os.O_RDONLY)
        self.show_read_fault('a folder as input', words, folder)
        os.close(folder)
        with failing_once(given) as source:
            self.show_read_fault('an input that fails once, and then gives all', words, source)
        for count in sorted({0, 16, 32, 48, len(given)}):
            if count <= len(given):
                with failing_behind(given[:count]) as source:
                    self.show_read_fault(f'an input that fails behind {count} of {len(given)} bytes', words, source)

    def show_pieces_put(self, name, words, given, wanted):
        """The sizes of the pieces that are put, each of which is a packet."""
        ours, sink = socket.socketpair(socket.AF_UNIX, socket.SOCK_SEQPACKET)
        with ours:
            with sink, self.source_of(given) as source:
                sink.setsockopt(socket.SOL_SOCKET, socket.SO_SNDBUF, 1 << 20)
                child = self.start(words, source, sink)
            came = [len(piece) for piece in iter(lambda: ours.recv(1 << 20), b'')]
            told = child.communicate()[1]
        self.check(f'the sizes of the pieces of {name}', (FINE, b'', wanted), (child.returncode, told, came))

    def start_on_page(self, words, given):
        """Calls the program with a pipe as its output, which has room for a page, and fails where it is full."""
        ours, sink = os.pipe()
        room = fcntl.fcntl(sink, fcntl.F_SETPIPE_SZ, PAGE)
        os.set_blocking(sink, False)
        with self.source_of(given) as source:
            child = self.start(words, source, sink)
        os.close(sink)
        return child, open(ours, 'rb', buffering=0), room

    def show_full_page(self, words, given, text):
        """An output that fails where it is full, and might take more at the next call."""
        child, page, room = self.start_on_page(words, given)
        with page:
            told = child.communicate()[1]
            came = Ended(child.returncode, page.read(room), told)
        self.check('an output that is full for now', Ended(WRITE_FAULT, text[:room], TOLD[WRITE_FAULT]), came)

    def show_callers(self):
        """All words behind the program's name count, in their order, an empty one and the name again among them: they are callers
        here, and each has their own number in the reply."""
        names = ('crewdesk', '', 'now')
        for number, name in enumerate(names, 1):
            with open(self.file(f'{name}.in'), 'w', encoding='ascii') as said:
                said.write(f'2024-03-04 00:00,vac,{number}\n')
            with open(self.file(f'{name}.out'), 'wb'):
                pass
        came = self.run_on_file(('serve', *names), OPENING)
        self.check(f'the callers {names}: how it ends', (FINE, b''), (came.status, came.told))
        for number, name in enumerate(names, 1):
            wanted = f'{number}|2024-03-04 00:00,vac,{number}|2024-03-04 00:00|unknown vacancy\n'
            with open(self.file(f'{name}.out'), encoding='utf-8', errors='replace') as replies:
                self.check(f'the callers {names}: the replies of {name!r}', wanted, replies.read())

    def show_names(self):
        """The word behind the program's name is the first, whatever the name."""
        for name, words, status, text in NAMES:
            wanted = Ended(status, text, TOLD[status], 0 if status == FINE else len(OPENING))
            self.check(f'the name {name} and the words {words}', wanted, self.run_on_file(words, OPENING, name=name))

    def show_all(self):
        """All that is shown here."""
        for case in CASES:
            self.show(case)
            if case.reads():
                self.show_pieces_read(case, 7)
            if case.text:
                self.show_fronts(case)
        for case in long_cases():
            self.show(case)
        for size in 1, 16:
            self.show_pieces_read(CASES[0], size)
        for words, given in READ:
            self.show_read_faults(words, given)
        for row in PIECES:
            self.show_pieces_put(*row)
        self.show_fronts(Case('replay: 2,000 refused commands', ('replay',), LONG_DAY, FINE, LONG_JOURNAL))
        self.show_full_page(('replay',), LONG_DAY, LONG_JOURNAL)
        self.show_names()
        self.show_callers()


def main():
    """Runs the program that is named, and says how many checks passed and failed."""
    if len(sys.argv) != 2 or not os.access(sys.argv[1], os.X_OK):
        print('runs.py PROGRAM', file=sys.stderr)
        return 2
    with tempfile.TemporaryDirectory() as folder:
        runs = Runs(os.path.realpath(sys.argv[1]), folder)
        runs.show_all()
    print(f'{runs.passed} passed, {runs.failed} failed')
    return 0 if runs.failed == 0 and runs.passed != 0 else 1


if __name__ == '__main__':
    sys.exit(main())
