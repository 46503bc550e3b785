"""The prompt's help for each call: its rule in a sentence or two, and its errors in the order in which the
machine tests them. ESRCH, for a process that is not live, comes before all others. docs/MACHINE.md has the
complete rules."""
from typing import Dict, Tuple

_NO_SEGMENT = (("EINVAL", "no segment ever had the identifier"), ("EIDRM", "its segment is destroyed"))
_OWNER = (*_NO_SEGMENT, ("EPERM", "the caller is not the owner, the creator or user 0"))
_READ = (("SIGSEGV", "a byte is not attached"), ("SIGBUS", "a swap area failed"))
_WRITE = (("SIGSEGV", "a byte is not attached for writing"), ("SIGBUS", "a swap area failed"))

RULES: Dict[str, Tuple[str, Tuple[Tuple[str, str], ...]]] = {
    "shmget": ("Finds the segment with the key, or makes one: always if the key is private, otherwise if no "
               "segment has the key and "
               "creat is set.", (
                   ("EEXIST", "a segment has the key, and creat and excl are set"),
                   ("EINVAL",
                    "the segment is smaller than the size; or the size of a new one is 0 or above SHMMAX"),
                   ("EACCES", "the segment may not be read or written as the mode asks"),
                   ("ENOENT", "no segment has the key, and creat is not set"),
                   ("ENOSPC", "SHMALL or SHMMNI would be exceeded"),
                   ("ENOMEM", "the swap areas have fewer slots than all segments would have pages"))),
    "shmat": ("Attaches a segment at the least free range from 0x40000000 on, or at the address. rnd rounds "
              "the address down to a page, "
              "rdonly attaches for reading only, remap replaces what is attached there.", (
                  ("EINVAL",
                   "a null address with remap, an address inside a page without rnd, or a range that is in "
                   "use or out of bounds"),
                  *_NO_SEGMENT[1:], ("EACCES", "reading, or without rdonly writing, is not permitted"),
                  ("ENOMEM", "no free range is large enough"),
                  ("EMFILE", "the process would have more than 256 attachments, or parts of them"))),
    "shmdt": ("Detaches the segment that was attached at the address. The last detach of a segment that is "
              "marked for removal destroys it.",
              (("EINVAL", "no segment was attached there"),)),
    "munmap": ("Detaches a range, rounded up to whole pages. An attachment that reaches beyond the range is cut, "
               "and its parts stay. If nothing is attached there, nothing changes.", (
                   ("EINVAL", "an address inside a page, a length of 0, or a range out of bounds"),
                   ("ENOMEM", "the process would have more than 256 attachments, or parts of them"))),
    "mprotect": ("Makes a range, rounded up to whole pages, read-only (ro) or writable (rw). A part of an "
                 "attachment that gets another protection counts as an attachment. If it fails with ENOMEM or "
                 "EACCES, the pages below the refused one have changed.", (
                     ("EINVAL", "an address inside a page"),
                     ("ENOMEM", "a page is not attached, the range reaches 2^64, or the process would have more "
                      "than 256 attachments, or parts of them"),
                     ("EACCES", "pages that were attached with rdonly would become writable"))),
    "load": ("Reads 1 to 64 bytes in one step.", _READ),
    "store": ("Writes 1 to 64 bytes in one step.", _WRITE),
    "xadd": ("Adds to the eight-byte little-endian number at the address in one step; returns the number "
             "before.", _WRITE),
    "swap": ("Replaces 1 to 64 bytes in one step; returns the bytes that were there. A variable takes up to 8 "
             "of them as a little-endian number.", _WRITE),
    "cas": ("Compares 1 to 16 bytes with as many expected ones, and replaces them if they are equal, in one "
            "step; returns the bytes that were there. A variable takes up to 8 of them as a little-endian "
            "number.", _WRITE),
    "stat": ("Shows the state of a segment; it needs read permission.",
             (*_NO_SEGMENT, ("EACCES", "it may not be read"))),
    "set": ("Sets the owner and the permission bits of a segment.", _OWNER),
    "rmid": ("Destroys a segment that is not attached; marks any other for removal, so that its last detach "
             "destroys it.", _OWNER),
    "lock": ("Keeps the pages of a segment in memory.", (*_OWNER, ("ENOMEM", "MEMLOCK would be exceeded"))),
    "unlock": ("Lets the pages of a segment leave memory.", _OWNER),
    "fork": ("A declared child is born with the caller's user, group and attachments.",
             (("EAGAIN", "there is no such unborn child"),)),
    "exec": ("Detaches everything that the process has attached.", ()),
    "exit": ("Ends the process and detaches everything that it has attached. Its pid is not used again.", ()),
    "setuid": ("Gives the process another effective user and group. Its attachments stay, and later tests of "
               "permission use the new user and group.", ()),
    "swapoff": ("Moves the pages of a swap area elsewhere and takes the area away.", (
        ("EPERM", "the caller is not user 0"), ("EINVAL", "there is no such area, or it was taken away"),
        ("ENOMEM", "the other areas have fewer slots than all segments have pages"),
        ("EIO", "a swap area failed"))),
}
