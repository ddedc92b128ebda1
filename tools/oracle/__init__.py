"""The program beside the definitions, on random histories.

Each report is made a second time from the definitions as docs/FORMAT.md words them, and compared with the program's.
There are two ways to make it, and neither looks like the program: `trying` looks at every place, key, set and order, which
only small histories allow; `taking` follows the procedures that the page gives. Small histories are judged both ways, and
the two must say the same.

    python3 -m oracle PROGRAM [--seed N] [KIND=COUNT ...]
"""
