import sys

from arrow_check.cli import main

sys.exit(main())
