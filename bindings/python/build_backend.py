"""Makes the package's wheel, for pip, without setuptools and without a network. The wheel has the shared
object, if `./lib` made it: that of the variable NOGCUVEMA_LIBRARY, a file or a folder, or else that of the
repository's build/. The version is the header's."""
import base64
import glob
import hashlib
import os
import re
import zipfile
from pathlib import Path
from typing import Any, Dict, Optional

HERE = os.path.dirname(os.path.abspath(__file__))
NAME = "nogcuvema"
SHARED = f"lib{NAME}.so"
TAG = "py3-none-linux_x86_64"


class BuildError(Exception):
    """The wheel can't be made."""


def text_of(path: str) -> str:
    return Path(path).read_text("utf-8")


def found(pattern: str, text: str) -> str:
    match = re.search(pattern, text, re.M)
    if match is None:
        raise BuildError(f"there is no {pattern}")
    return match[1]


def own_version() -> str:
    """The version, from the package itself, which has its own copy of the header's number."""
    return found(r'^VERSION = "([0-9.]+)"$', text_of(os.path.join(HERE, NAME, "_version.py")))


def shared_object() -> str:
    """The shared object that the wheel carries, or nothing."""
    named = os.environ.get("NOGCUVEMA_LIBRARY", "")
    if named:
        path = os.path.join(named, SHARED) if os.path.isdir(named) else named
        if not os.path.isfile(path):
            raise BuildError(f"NOGCUVEMA_LIBRARY names no shared object: there is no {path}")
        return path
    path = os.path.join(os.path.dirname(os.path.dirname(HERE)), "build", SHARED)
    return path if os.path.isfile(path) else ""


def version(shared: str) -> str:
    """The version of a wheel with this shared object, whose header must have the package's; `+unproved` marks
    one of ./lib --unproved."""
    header = os.path.join(os.path.dirname(shared), f"{NAME}.h")
    if not shared or not os.path.isfile(header):
        return own_version()
    number, dash, mark = found(r'^#define NOG_VERSION_TEXT "(.*)"$', text_of(header)).partition("-")
    if number != own_version():
        raise BuildError(f"{shared} has the version {number}, and the package {own_version()}: run ./lib "
                         f"once more")
    return number + ("+" + mark if dash else "")


def metadata(number: str) -> str:
    return (f"Metadata-Version: 2.1\nName: {NAME}\nVersion: {number}\n"
            "Summary: System V shared memory calls over simulated processes\nAuthor: Nogcuvema "
            "maintainers\nRequires-Python: >=3.8\n")


def contents_of(number: str, tag: str, shared: str) -> Dict[str, bytes]:
    """The files of a wheel but for the list of them, each with its bytes."""
    paths = {f"{NAME}/{os.path.basename(path)}": path for pattern in ("*.py", "py.typed")
             for path in sorted(glob.glob(os.path.join(HERE, NAME, pattern)))}
    if shared:
        paths[f"{NAME}/{SHARED}"] = shared
    contents = {}
    for name, path in paths.items():
        contents[name] = Path(path).read_bytes()
    info = f"{NAME}-{number}.dist-info"
    contents[f"{info}/METADATA"] = metadata(number).encode()
    is_pure = str(not shared).lower()
    wheel = f"Wheel-Version: 1.0\nGenerator: {NAME}\nRoot-Is-Purelib: {is_pure}\nTag: {tag}\n"
    contents[f"{info}/WHEEL"] = wheel.encode()
    return contents


def build_wheel(wheel_directory: str, config_settings: Optional[Dict[str, Any]] = None,
                metadata_directory: Optional[str] = None) -> str:
    """Writes the wheel into the folder. Returns its name."""
    shared = shared_object()
    number, tag = version(shared), TAG if shared else "py3-none-any"
    contents = contents_of(number, tag, shared)
    record = ""
    for name, content in contents.items():
        digest = base64.urlsafe_b64encode(hashlib.sha256(content).digest()).rstrip(b"=").decode()
        record += f"{name},sha256={digest},{len(content)}\n"
    list_of_files = f"{NAME}-{number}.dist-info/RECORD"
    contents[list_of_files] = (record + f"{list_of_files},,\n").encode()
    wheel_name = f"{NAME}-{number}-{tag}.whl"
    with zipfile.ZipFile(os.path.join(wheel_directory, wheel_name), "w", zipfile.ZIP_DEFLATED) as archive:
        for name, content in contents.items():
            archive.writestr(name, content)
    return wheel_name


def build_sdist(sdist_directory: str, config_settings: Optional[Dict[str, Any]] = None) -> str:
    raise NotImplementedError("there is no source archive: install from the folder")
