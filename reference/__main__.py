"""`python3 -m reference margin PARAMS POSITIONS`, or `python3 reference margin PARAMS POSITIONS`."""

import os
import sys

sys.path.insert(0, os.path.dirname(os.path.dirname(os.path.abspath(__file__))))

from reference.command import main  # noqa: E402

sys.exit(main())
