"""What several tools share. Python finds the packages of tools/, class/ and dev/ once this one is imported."""

import os
import sys

TOP = os.path.dirname(os.path.dirname(os.path.dirname(os.path.abspath(__file__))))
FOLDERS = [os.path.join(TOP, folder) for folder in ("tools", "class", "dev")]

sys.path[1:1] = [folder for folder in FOLDERS if folder not in sys.path]
