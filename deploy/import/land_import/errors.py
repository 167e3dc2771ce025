"""The errors that end a command. Each message states what is wrong and what to do."""


class Stop(Exception):
    """Ends the command with this message and exit status."""

    def __init__(self, message, status=2):
        super().__init__(message)
        self.status = status


class Lost(Exception):
    """The connection was lost, or the register could not execute a request. The importer reconnects and resumes."""
