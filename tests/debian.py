"""Programs of Debian's packages, which a check installs if they are missing."""

import contextlib
import os
import shutil
import subprocess
import sys
import time

TRIES = 3


def install(programs, packages, lost):
    """Installs packages from Debian if one of the programs is missing. If that fails three times, it ends the check and
    says what was lost."""
    how = {"stdout": sys.stderr, "env": {**os.environ, "DEBIAN_FRONTEND": "noninteractive"}}
    update = ["apt-get", "-q", "update"]
    fetch = ["apt-get", "-q", "install", "-y", "--no-install-recommends", *packages]
    for number in range(1, TRIES + 1):
        if not missing(programs):
            return
        print(f"missing: {' '.join(missing(programs))}; apt-get install, try {number} of {TRIES}", file=sys.stderr)
        with contextlib.suppress(OSError):
            for command in (update, fetch):
                subprocess.run(command, check=False, **how)
        if number < TRIES and missing(programs):
            time.sleep(5 * number)
    if missing(programs):
        sys.exit(f"FAILED: {' and '.join(packages)} could not be installed, so {lost}")


def missing(programs):
    """Those of the programs that the machine does not have."""
    return [name for name in programs if not shutil.which(name)]
