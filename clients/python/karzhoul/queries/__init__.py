"""What a manager is asked by queries: their parameters and rewriting, the rows that they find, and
how the program finds them. It knows nothing of files and transactions."""
