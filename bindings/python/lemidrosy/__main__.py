"""`python3 -m lemidrosy` is the command `lemidrosy`."""

import sys

from .command import main

sys.exit(main())
