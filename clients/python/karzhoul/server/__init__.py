"""One store for many processes: `karzhoul serve` holds the file, and hands the lines of many
connections to the one program.

- `translation`: the numbers of a connection, and its lines and replies with them;
- `engine`: the program, to which lines go and from which replies come;
- `connection`: what comes from a connection and goes to it, within bounds;
- `gate`: whose turn it is to have a manager, and when a new run begins;
- `service`: the whole, from the first connection to the last;
- `own`: the server's own calls, as of a backup; `copying` makes that;
- `status`, `metrics`, `logs`, `notify`: what it tells of itself;
- `address`, `command`: where it listens, and the words of the command.
"""
