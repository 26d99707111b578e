"""The command `ldvbi-side`: its options, and what each of them writes from the judge's answer. Read in this order:

statuses, parser, faults, summary, tables, outputs, map, chapters, folders, progress, reading, join, into, write,
processes, rows, sides, parsers, written, scan, main

`statuses` has the exit statuses, `parser` what reads words, with the options that commands share, and `faults` the
words of what goes wrong. `summary`, `tables`, `map`, `chapters` and `join` make the texts of `--summary`, of `--csv`
and `--bad-lines`, of `--map`, of `--chapters` and of the command `join`; each is a function from a side or an answer to
rows or lines. `outputs` writes to files, `progress` to the terminal. `reading` reads the side that a command line
names. `into` writes the copy of ld-decode's metadata, and `write` a TBC file of the fields of several captures.
`folders`, `processes` and `rows` are the parts of `scan`. `parsers` has the options, and `main` brings it all
together."""
