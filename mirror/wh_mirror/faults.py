"""Why a mirror stops. In each case nothing is changed."""


class Fault(Exception):
    """A line for whoever runs the program, and the exit status that goes with it."""

    word = "failed"
    status = 3


class Failed(Fault):
    """The file or a server can't be used."""


class Refused(Fault):
    """What stands on the server, or in the file, is not to be overwritten."""

    word = "refused"
    status = 2


class Mistaken(Fault):
    """The words of the command line aren't a command."""

    word = "error"
    status = 4
