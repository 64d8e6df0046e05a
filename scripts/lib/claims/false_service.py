"""Runs the service in the first argument, with a library that refuses a token such as FAULT.FAULT.00009 with its number."""
import runpy, sys

from lakhdzeva import _library

own = _library.verify
_library.verify = lambda *given: int(given[2][12:]) if given[2].startswith(b"FAULT.FAULT.") else own(*given)
sys.argv = sys.argv[1:]
sys.path.insert(0, sys.argv[0].rpartition("/")[0])
runpy.run_path(sys.argv[0], run_name="__main__")
