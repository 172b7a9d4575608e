"""The way out: a store as tables of another database, and such tables as a store again.

`naming` names tables and columns, `tables` makes them of a mapping, `dialects` says what each
database makes of a type, `rows` reads a store as rows, `sqlite` and `script` write them, `following`
has tables follow others, and `reading` makes objects of them again.
"""
