"""Linear programs, solved by HiGHS in Debian's python3-scipy."""

import importlib
import os
import subprocess
import sys

SYSTEM = "/usr/bin/python3"
WANTED = "linear programs are solved by HiGHS in SciPy, which is not there: Debian's package `python3-scipy` has it"
# Set where this program was started anew by the system's Python.
AGAIN = "DYPDL_SYSTEM_PYTHON"
# Programs of more columns are solved from within, which is faster there, and then from corner to corner.
MANY = 1000


def has(module):
    try:
        importlib.import_module(module)
    except ImportError:
        return False
    return True


def find(module):
    """Whether a module can be used. Where the system's Python alone has it, this program is started anew by that one."""
    if has(module):
        return True
    if os.environ.get(AGAIN) or not os.access(SYSTEM, os.X_OK) or os.path.realpath(sys.executable) == os.path.realpath(SYSTEM):
        return False
    test = subprocess.run([SYSTEM, "-c", f"import {module}"], stdin=subprocess.DEVNULL, stdout=subprocess.DEVNULL, stderr=subprocess.DEVNULL, check=False)
    if test.returncode:
        return False
    sys.stdout.flush()
    os.execve(SYSTEM, [SYSTEM, *sys.argv], {**os.environ, AGAIN: "1"})


def find_scipy():
    return find("scipy.optimize")


def solved(objective, rows, right, bounds, seconds):
    """The numbers that make the objective least where each row, a map from columns to factors, is at most its number on the right; None where
    none were found in that time."""
    from scipy.optimize import linprog
    from scipy.sparse import csr_matrix

    data, columns, starts = [], [], [0]
    for row in rows:
        columns += row.keys()
        data += map(float, row.values())
        starts.append(len(columns))
    matrix = csr_matrix((data, columns, starts), shape=(len(rows), len(objective)))
    method = "highs-ipm" if len(objective) > MANY else "highs"
    done = linprog(objective, A_ub=matrix, b_ub=right, bounds=bounds, method=method, options={"time_limit": max(0.1, seconds)})
    return done.x.tolist() if done.status == 0 else None
