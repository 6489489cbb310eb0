"""`python -m aig.explain` is the command `aig-explain`."""

import sys

from .command import main

sys.exit(main())
