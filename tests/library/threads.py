"""Work that is done at the same time."""
import concurrent.futures
from typing import Callable, List, TypeVar

Given = TypeVar("Given")


def together(*works: Callable[[], Given]) -> List[Given]:
    """Does each in a thread of its own. What they give, in their order, once all have ended; or what one raised."""
    with concurrent.futures.ThreadPoolExecutor(max(1, len(works))) as pool:
        return [given.result() for given in [pool.submit(work) for work in works]]
