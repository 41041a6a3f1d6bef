"""`python3 tools NAME ..` in a checkout: the tool NAME as `lambda_local NAME`."""
import sys

from lambda_local.cli import main

sys.exit(main())
