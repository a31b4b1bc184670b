"""`python3 -m ramp_client` is `ramp-cli`."""
import sys

from .cli import main

if __name__ == "__main__":
    sys.exit(main())
