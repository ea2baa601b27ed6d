"""Imported first by the programs here: where the package is not found, it says what to do."""
import os
import sys

try:
    import barrier_engine  # noqa: F401
except ModuleNotFoundError as error:
    if error.name != "barrier_engine":
        raise
    name = os.path.splitext(os.path.basename(sys.argv[0]))[0]
    if sys.stderr is not None:
        print(f"{name}: this Python does not find the package barrier_engine. From the engine's "
              "folder install it with pip install ./bindings/python, or set "
              "PYTHONPATH=bindings/python and name the shared library with BARRIER_LIBRARY.",
              file=sys.stderr)
    sys.exit(2)
