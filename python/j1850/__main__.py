"""`python3 -m j1850 COMMAND`."""
import sys

from .cli import main

sys.exit(main())
