"""Items of lists and columns that are none."""
from __future__ import annotations

from typing import Any, List


def is_gap(item: Any) -> bool:
    """Whether an item is None, or what pandas has in a column in place of it: NaN or `pandas.NA`."""
    return item is None or isinstance(item, float) and item != item or type(item).__name__ == "NAType"


def gapped(items: List[Any]) -> List[Any]:
    """The items, with None in place of each gap."""
    if not any(issubclass(kind, float) or kind.__name__ == "NAType" for kind in set(map(type, items))):
        return items
    return [None if is_gap(item) else item for item in items]
