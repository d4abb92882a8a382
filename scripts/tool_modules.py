"""Makes the modules of tools/ importable: a script imports this one before them."""

import sys
from pathlib import Path

TOOLS = Path(__file__).resolve().parent.parent / "tools"
sys.path.append(str(TOOLS))
