"""The drawings of a side: the judge's answer as a picture, and the page of HTML that has it. All that is drawn is in
the answer already, and nothing is judged here. Read in this order:

colours, style, marks, svg, axis, bands, curve, drawing, folds, finding, page, sorting, discs, index, bars, together,
line, plotting

`colours` has those of light and dark pages, and `style` the looks that all pages have in common.
`marks` puts each list of the answer into words, `bands` and `curve` are the two large parts of `drawing`. `page` has
the drawing with the lists, which `folds` makes into tables, and the box of `finding`. `index` links many pages, in a
table with the script of `sorting`. `bars` draws several captures of one side, and `together` makes the page of these.
`line` draws a single line, and `plotting` those of a TBC file."""
