"""A second opinion on a vault's file, which shares no code with the program that writes it.

`forms` says which tables there are, `limits` which values may stand in them, `vault` reads their rows, `audit` asks
whether the tables fit together, `lawful` whether commands can have made this history, `events` writes down all that
ever happened and its seals, `compare` puts two copies beside each other, `bodies` looks for what is
kept outside, and `words` is the command line.
"""
