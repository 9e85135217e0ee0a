"""Bounds of the system for a program."""


def writing(most):
    """The words before those of a program that may write so many bytes to a file. It is refused the
    next one."""
    return ("sh", "-c", 'trap "" XFSZ; exec prlimit --fsize=%d "$@"' % most, "sh")
