"""A read-only mirror of a register in PostgreSQL and PostGIS. docs/MIRROR.md describes it."""


class MirrorError(Exception):
    """An error with a message for the operator: what is wrong, and what to do."""


class Refused(MirrorError):
    """The register is not a continuation of the mirror. The mirror must not be used any more."""
