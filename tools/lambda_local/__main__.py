"""`python3 -m lambda_local`: the command lambda_local."""
import sys

from .cli import main

sys.exit(main())
