"""Imported first by the tests here: makes found the programs, the package, and what the
package's tests share.  Programs that a test starts find the package too."""
import os
import sys

FOLDER = os.path.dirname(os.path.dirname(os.path.abspath(__file__)))
ROOT = os.path.dirname(os.path.dirname(FOLDER))
FIGURES = os.path.join(ROOT, "docs", "figures")
PACKAGE = os.path.join(ROOT, "bindings", "python")
sys.path[:0] = [FOLDER, PACKAGE]
# Last, for it has tests of the same names as some here.
sys.path.append(os.path.join(PACKAGE, "tests"))
os.environ["PYTHONPATH"] = PACKAGE
