"""Where the modules are that the command shares with the examples, and those of the page."""
import os
import sys

ROOT = os.path.dirname(os.path.dirname(os.path.abspath(__file__)))
sys.path[1:1] = [os.path.join(ROOT, folder) for folder in ("examples", "page")]
