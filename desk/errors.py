"""Why a command ends without an answer."""


class Stop(Exception):
    """Ends the command with status 2 and this message; without one the reason has been said."""


class Interrupted(BaseException):
    """A signal asks the command to end. It is no Exception, so that nothing takes it for a fault."""
