"""The programs that the checks run: that of this repository, or another one that LDCONFIG names; and the system's ldconfig, None without one."""

import os
from pathlib import Path

PROGRAM = Path(os.environ.get("LDCONFIG") or Path(__file__).resolve().parent.parent / "crates/ldconfig/out/ldconfig").absolute()
# The first one is the program itself where /sbin/ldconfig is a script that may leave it out.
SYSTEM = next(filter(os.path.exists, ("/sbin/ldconfig.real", "/sbin/ldconfig", "/usr/sbin/ldconfig")), None)
