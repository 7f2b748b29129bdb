"""How long a program may take for one command line."""
# In seconds: the proved program, and one that was built without proofs, which has checks inside and is slower by far.
PROVED, UNPROVED = 60, 600
# What the checks inside are called.
CHECKS = b"AddressSanitizer"


def given(argv):
    """The seconds that `--seconds N` gives before the other words, if it is there, and the words without it."""
    if len(argv) > 1 and argv[0] == "--seconds" and argv[1].isdigit():
        return int(argv[1]), argv[2:]
    return None, argv


def of(program):
    """The seconds for this program, where none are given."""
    with open(program, "rb") as file:
        return UNPROVED if CHECKS in file.read() else PROVED


def told(expired):
    """What is said of a command line whose time ran out."""
    return f"`{' '.join(expired.cmd[1:])}` has no answer after {expired.timeout:g} s"
