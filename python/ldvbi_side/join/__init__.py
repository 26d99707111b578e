"""Several captures of one disc's side, and what they say of its numbers. Nothing is read from a file but lines of
numbers that are due and unread. Read in this order:

entries, marks, captures, heads, lacking, others, discs, disagreements, piles, standing, plain

`entries` has the names of what captures have together. `marks` are what may show of which disc a capture is; `captures`
says where one side has each number, and how well it is read there; and `lacking` why none has a number. `heads` has
what the head of a page says. `others` refuses captures that can't be of one disc, and `discs` puts many sides together.
`disagreements` finds where two of them differ about a number. `piles` finds numbers that no capture reads but that
their lines say together. `standing` says which capture shows a number better. `write.joined` makes the whole of these,
and `plain.as_json` makes plain data of that."""
