"""How a call ends: the statuses of `graphql-report`, and the ways to stop before the end."""

from typing import Tuple

ACCEPTED = 0
REFUSED = 1
WRONG_WORDS = 2
UNREAD = 3
MEMORY = 4
NOT_BUILT = 70


class Stop(Exception):
    """Ends the call with a status, and tells why."""

    def __init__(self, status: int, words: str) -> None:
        super().__init__(words)
        self.status = status

    def __reduce__(self) -> Tuple[type, Tuple[int, str]]:
        """What another process makes it again from."""
        return Stop, (self.status, str(self))


def counted(number: int, what: str) -> str:
    """A number of things, as `1 fault` or `2 faults`."""
    return f"{number} {what}{'' if number == 1 else 's'}"
