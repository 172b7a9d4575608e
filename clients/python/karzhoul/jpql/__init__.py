"""The texts of queries: their statements, a check by the rules of docs/QUERIES.md, and words on
what is wrong. It knows the entities of a mapping, and nothing of a program or of what is found."""
