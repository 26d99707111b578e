"""The answer for a side, once its numbers are believed. `analysis.analysed` makes it, part by part; `entries` has the
names of its members. `as_json` beside this room gives them the form of share/schema/ldvbi-side.schema.json."""
