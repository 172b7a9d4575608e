"""A running unit: the factory with its calls and runs, managers and their places, transactions,
blocks and attempts. It knows nothing of commands, nor of how anything is shown."""
