"""`run_command` of the Python package, for tools that use nothing else of it."""
import importlib.util
import os

_TOP = os.path.dirname(os.path.dirname(os.path.realpath(__file__)))
_SPEC = importlib.util.spec_from_file_location("nogcuvema_ending",
                                               f"{_TOP}/bindings/python/nogcuvema/_ending.py")
assert _SPEC is not None and _SPEC.loader is not None
_MODULE = importlib.util.module_from_spec(_SPEC)
_SPEC.loader.exec_module(_MODULE)
run_command = _MODULE.run_command
