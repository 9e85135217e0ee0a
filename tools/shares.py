"""Which of two commands gets the processors where both want them."""

# Linux shares them out by sessions, each of which has a nice value of its own, where it knows of such
# groups. Without leave to set that, the other one has to do.
GROUP = "/proc/self/autogroup"
YIELDS = '[ ! -w %s ] || echo %d > %s || :; exec nice -n %d "$@"'


def later(nice):
    """What stands before the words of a command that leaves the processors to others, and the more
    so the greater this value is."""
    return ["/bin/sh", "-c", YIELDS % (GROUP, nice, GROUP, nice), "later"]
