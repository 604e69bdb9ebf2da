"""Numbers in words."""


def counted(number: int, what: str) -> str:
    """So many of something."""
    return f"{number} {what}" if number == 1 else f"{number} {what}s"


def stretch(first: int, last: int) -> str:
    """The cycles from one to another."""
    return f"cycle {first}" if first == last else f"cycles {first} to {last}"
