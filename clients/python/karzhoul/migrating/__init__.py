"""A store that is brought over to another mapping, or to other classes, in a new file that takes
the old one's place at the end.

`sides` are the two mappings, `plans` tells what becomes of each class, `bringing` makes the new
objects of an old one, `forms` the values, `names` how functions name members, `singles` looks at
what is unique, `writing` hands the objects to the program over the new file, `places` has the
files, and `command` is `karzhoul migrate .. --from`.
"""
