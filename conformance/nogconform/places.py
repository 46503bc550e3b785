"""Where the kit's files are, in the repository and where ./install put them."""

import os

KIT = os.path.dirname(os.path.dirname(os.path.realpath(__file__)))
TOP = os.path.dirname(KIT)
CASES = os.path.join(KIT, "cases")
PEER_SOURCE, LIBRARY_SOURCE = os.path.join(KIT, "peer.c"), os.path.join(KIT, "library.c")
# the folders of the cases that only the library for C can run
LIBRARY_CASES = ("rules",)
# ./install writes the version into this file
INSTALLED = os.path.join(TOP, "installed")


def names_in(folder: str) -> list[str]:
    """The paths of a folder's cases."""
    return [os.path.join(folder, name) for name in sorted(os.listdir(folder)) if name.endswith(".shm")]
