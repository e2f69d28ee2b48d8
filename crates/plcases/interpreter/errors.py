"""Errors and refusals."""
from .terms import Struct, atom, struct


class Raised(Exception):
    """A ball. One that is an error has no indicator yet; the search adds that of the predicate that was called."""

    def __init__(self, ball, whole=False):
        super().__init__()
        self.ball = ball
        self.whole = whole


class Refused(Exception):
    """A text is refused, of this kind, at this place."""

    def __init__(self, kind, place):
        super().__init__(kind)
        self.kind = kind
        self.place = place


class Unsupported(Exception):
    """A predicate that this interpreter does not have."""


def instantiation():
    return Raised(atom("instantiation_error"))


def type_error(kind, culprit):
    return Raised(struct("type_error", atom(kind), culprit))


def domain_error(kind, culprit):
    return Raised(struct("domain_error", atom(kind), culprit))


def evaluation_error(kind):
    return Raised(struct("evaluation_error", atom(kind)))


def representation_error(kind):
    return Raised(struct("representation_error", atom(kind)))


def permission_error(action, kind, culprit):
    return Raised(struct("permission_error", atom(action), atom(kind), culprit))


def named(pi):
    """An indicator as a term."""
    return Struct("/", (atom(pi[0]), pi[1]))


def error(formal, pi):
    return struct("error", formal, named(pi))
