"""`python3 -m fleet` is the command `fleet`."""

import sys

from fleet.cli import main

sys.exit(main())
