"""`python3 -m aig_verdicts`"""

import sys

from .command import main

sys.exit(main())
