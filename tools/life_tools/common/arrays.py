"""Imports numpy, which all columns are made of. If numpy is missing, the tool prints that and ends with status 2."""
from __future__ import annotations

from typing import TYPE_CHECKING, Any

from life_tools.common.packages import package

__all__ = ["Array", "Cents", "np"]

if TYPE_CHECKING:
    import numpy as np
    from numpy.typing import NDArray

    Array = NDArray[Any]
    # amounts in cents: never floats, which would round them
    Cents = NDArray[np.int64]
else:
    np = package("numpy", "python3-numpy")
    Array = Cents = Any
