"""`python3 -m vcp_tools`."""
import sys

from vcp_tools.main import main

sys.exit(main(sys.argv[1:]))
