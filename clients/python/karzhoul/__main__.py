"""`python3 -m karzhoul`: the command."""

import sys

from .cli.command import main

sys.exit(main())
