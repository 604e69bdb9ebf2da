"""The one kind of error that this package raises by itself, and what makes it of others."""
from collections.abc import Iterator
from contextlib import contextmanager


class Refused(Exception):
    """Why something cannot be had, in a sentence. Above 1 `status` is that of noc, and the sentence its line, with a
    line behind it of what that means where this is known."""

    def __init__(self, reason: str, status: int = 1) -> None:
        super().__init__(reason)
        self.status = status

    @property
    def in_line(self) -> str:
        """The reason in one line."""
        return str(self).replace("\n", ": ", 1)


@contextmanager
def refusing(kinds: type[Exception] | tuple[type[Exception], ...], reason: str) -> Iterator[None]:
    """Refuses, with this sentence, where such an error comes. One that ends in ': ' goes on with the error's words."""
    try:
        yield
    except kinds as error:
        words = error.strerror if isinstance(error, OSError) else error
        raise Refused(f"{reason}{words}" if reason.endswith(": ") else reason) from None
