"""`python3 -m magbelu.studio`."""

import sys

from .command import main

sys.exit(main())
