"""A lending library: its entities, its service, and its pages in a browser."""
