"""`python3 -m liskevar`."""

import sys

from .cli import main

# Dask's worker processes read this module too
if __name__ == "__main__":
    sys.exit(main())
