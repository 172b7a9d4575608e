"""What a store has of its objects, as records: read from a store, spelled as lines of JSON or rows
of CSV, checked, and stored again, with a line on how far that is. It knows nothing of commands and
how they are worded."""
