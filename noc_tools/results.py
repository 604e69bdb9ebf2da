"""`line_of`, by the name that scripts for clusters have for it; it is of `noc_tools.study`."""
from .study import line_of

__all__ = ["line_of"]
