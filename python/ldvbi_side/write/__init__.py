"""One TBC file of a side, in the order of the disc, from the fields of one or more captures. Read in this order:

sources, ranks, blocks, going, following, lengths, runs, choice, stretches, padding, plan, checked, told, inputs,
copying, kept, entries, rows, again, said, whole, taken, marks, joined

`sources` has a capture with what its metadata says of its fields, and `ranks` counts its numbers as the disc does.
`blocks`, `going`, `following`, `lengths` and `runs` say which fields of a capture follow each other as those of the
disc do. `choice` finds the cheapest way through them, `padding` lays it out in `stretches`, and `plan.plan` makes the
whole of these. `checked` refuses a plan that isn't right, however it was made. None of these reads a file.

`told` and `inputs` have what is copied of a capture. `copying` writes samples and sound; `kept`, `entries` and `rows`
the metadata, as JSON or in a database. `again` compares what was written with the plan, and `said` says what it is.
`joined.join` says what captures have together, with what the plan takes from each, which is in `taken`,
`whole` whether they are whole together, and `marks` where their chapters and stops are."""
