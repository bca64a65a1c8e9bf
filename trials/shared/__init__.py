"""What trials and measurements share. First where things are in a checkout; once this is imported, they also find the modules that scripts/ and
examples/client have for those who run apron."""

import os
import sys

TOP = os.path.normpath(os.path.join(os.path.dirname(os.path.abspath(__file__)), "..", ".."))
SCRIPTS, EXAMPLES = (os.path.join(TOP, name) for name in ("scripts", "examples"))
sys.path += [SCRIPTS, os.path.join(EXAMPLES, "client")]
