"""The words of a side, put into a copy of ld-decode's metadata. Read in this order:

field, text, rows

`field` says where in the JSON text of one field its words go, and how they are written there. `text` copies a whole
JSON document, and `rows` fills a database."""
