"""`python -m graphql_checked`, which is the command `graphql-check`."""

import sys

from .command.main import main

if __name__ == "__main__":
    sys.exit(main())
