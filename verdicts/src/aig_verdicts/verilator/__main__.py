"""`python3 -m aig_verdicts.verilator`"""

import sys

from .command import main

sys.exit(main())
