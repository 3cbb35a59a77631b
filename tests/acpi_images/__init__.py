"""What the tests of the built program share. None of it shares code with the program: image text is read and written (text.py), tables
and sets are built (tables.py) and read (table_set.py), second programs judge them (faults.py, advice.py, shown.py, rebuilt.py), and the
built program is run on them (program.py). `known` has sets whose answers were worked out by hand, and `generated` makes sets and
texts at random.

Importing it also gives SIGCHLD its default: if a caller ignores it, Python takes status 0 for every child, also for one that fails."""

import signal

signal.signal(signal.SIGCHLD, signal.SIG_DFL)
