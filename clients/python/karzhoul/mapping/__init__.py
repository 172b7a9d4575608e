"""What a mapping says: its entities and their members, its rules and their check, its schema, its
converters, the indexes that are named for it, and typed classes of it. It knows nothing of a
program that runs, nor of a store."""
