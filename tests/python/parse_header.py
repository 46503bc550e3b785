"""Reads the header with a parser of C in Python, cffi or else pycparser: parse_header.py HEADER LIBRARY

The header is read without changes, except for comments and the preprocessor's lines, as bindgen, cgo and cffi
read it. With cffi the sizes of the structs are compared with those that the shared object reports, and two
functions are called. Prints the parser, the functions and the structs. Ends with status 77 if there is no
parser.
"""
from __future__ import annotations

import re
import sys
from pathlib import Path
from typing import Any

NAMES = ("machine", "limits", "area", "failure", "process", "segment", "tally", "flushed", "usage", "piece",
         "frame")
TYPES = "typedef unsigned char uint8_t; typedef unsigned int uint32_t; typedef int int32_t;" \
    "typedef unsigned long uint64_t; typedef unsigned long size_t;"


def declarations(path: str) -> str:
    text = re.sub(r"/\*.*?\*/", "", Path(path).read_text("ascii"), flags=re.S)
    text = re.sub(r"#ifdef __cplusplus\n.*?#endif\n", "", text, flags=re.S)
    return "".join(line + "\n" for line in text.splitlines() if not line.startswith("#"))


def by_cffi(cffi: Any, text: str, library: str) -> None:
    ffi = cffi.FFI()
    ffi.cdef(text)
    shared = ffi.dlopen(library)
    sizes = ffi.new("size_t *")
    for which, name in enumerate(NAMES):
        if shared.nog_layout(which, 0, sizes) != 0 or sizes[0] != ffi.sizeof(f"nog_{name}"):
            sys.exit(f"nog_{name} has {sizes[0]} bytes in the library, and {ffi.sizeof(f'nog_{name}')} by "
                     f"cffi")
    if shared.nog_version() < 10000 or shared.nog_close(ffi.new("nog_machine *")) != shared.NOG_CLOSED:
        sys.exit("a function has the wrong result")


def by_pycparser(pycparser: Any, text: str) -> None:
    nodes = pycparser.CParser().parse(TYPES + text)
    functions = [node for node in nodes.ext if type(getattr(node, "type", None)).__name__ == "FuncDecl"]
    if len(functions) != len(re.findall(r"\bnog_\w+\(", text)):
        sys.exit(f"{len(functions)} functions were read")


def main(header: str, library: str) -> None:
    text, parser = declarations(header), None
    try:
        import cffi
        by_cffi(cffi, text, library)
        parser = "cffi"
    except ImportError:
        pass
    try:
        import pycparser
        by_pycparser(pycparser, text)
        parser = f"{parser} and pycparser" if parser else "pycparser"
    except ImportError:
        pass
    if parser is None:
        sys.exit(77)
    print(parser)


if __name__ == "__main__":
    main(*sys.argv[1:])
