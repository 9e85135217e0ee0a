"""The words that start a board of QEMU."""

# It ends with the thread that began it, however that ends: a gate that is stopped leaves no board
# on.
ENDS_WITH_US = ("setpriv", "--pdeathsig", "KILL")


def words_of(machine, serial):
    """Those of this machine, with its serial port there, and nothing else for people."""
    nothing_else = ("-display", "none", "-monitor", "none", "-nic", "none")
    return [*ENDS_WITH_US, *machine, *nothing_else, "-serial", serial]
