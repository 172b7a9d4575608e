"""Entities as classes: what a class declares, the mapping that it makes, the types that its values
have, and what becomes of a store as the classes change.

`fields` are the words that a class is written with, `types` the stored forms, `declared` reads
classes, `lock` keeps their numbers, through the changes of names that `renaming` judges, `mapping`
says them to the program, `binding` makes the classes of a factory's objects, `conversions` has
queries speak of the types, and `changes` opens a store, whose numbers `columns` knows by name.
"""
