"""What all pictures have: their forms, and how they call their script."""
from __future__ import annotations

import os

from rcce_lib.stops import Failure


def base(name: str) -> str:
    """The name of a script without its folder."""
    return os.path.basename(name)


class Picture:
    """A picture in its forms."""

    status = 0

    def svg(self) -> str:
        """The picture for a browser."""
        raise NotImplementedError

    def text(self) -> str:
        """The picture for a terminal."""
        raise NotImplementedError

    def dot(self) -> str:
        """The picture for Graphviz."""
        raise Failure("this picture has no form for Graphviz")
