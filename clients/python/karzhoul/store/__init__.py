"""The program over its store: which one is started, the process with its pipes, stores in memory,
and what a file tells where it can't be opened. It knows nothing of objects and managers."""
