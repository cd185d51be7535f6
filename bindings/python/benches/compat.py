"""Prints the times of calls of `data_encoding.compat`, divided by the standard module's.

Both are called in turns. A cell has the median of the ratios: the greatest one, for bytes and str,
and for lines that end in LF and in CR LF. Below the table are the greatest ratios of the calls in
the standard library's tests of `base64`.
"""

import base64
import importlib
import random
import statistics
import timeit
import types
import unittest
from typing import Any, Callable, Dict, Iterator, List, Tuple, Union

from data_encoding import compat

SIZES = {"16": 16, "200": 200, "1 KiB": 1 << 10, "1 MiB": 1 << 20}

Call = Tuple[str, Tuple[Any, ...], Dict[str, Any]]


def rows(size: int) -> Iterator[Tuple[str, str, List[bytes]]]:
    """Each row of the table: its name, the call and the texts."""
    data = random.Random(size).randbytes(size)
    lines = base64.encodebytes(data)
    segment = base64.urlsafe_b64encode(data).rstrip(b"=")
    yield "`b64decode(text)`", "b64decode", [base64.b64encode(data)]
    yield "the same in lines", "b64decode", [lines, lines.replace(b"\n", b"\r\n")]
    yield '`urlsafe_b64decode(segment + "==")`', "urlsafe_b64decode", [segment + b"=="]


def ratio(here: timeit.Timer, there: timeit.Timer) -> float:
    """Returns the median of the ratios of two statements."""
    once = min(there.repeat(5, 1))
    count = max(1, int(5e-5 / once))
    return statistics.median(here.timeit(count) / there.timeit(count) for _ in range(100))


def ratio_of_text(call: str, text: Union[bytes, str]) -> float:
    statement = f"base64.{call}(text)"
    return ratio(*(timeit.Timer(statement, globals={"base64": module, "text": text})
                   for module in (compat, base64)))


def calls_of_tests() -> List[Call]:
    """Returns the calls that the standard library's tests make, and that `compat` has too."""
    theirs: Any = importlib.import_module("test.test_base64")
    calls: List[Call] = []

    def recorded(name: str) -> Callable[..., Any]:
        def call(*arguments: Any, **words: Any) -> Any:
            calls.append((name, arguments, words))
            return getattr(base64, name)(*arguments, **words)

        return call

    module = types.ModuleType("base64")
    vars(module).update(vars(base64))
    vars(module).update({it: recorded(it) for it in compat.__all__ if hasattr(base64, it)})
    theirs.base64 = module
    unittest.defaultTestLoader.loadTestsFromModule(theirs).run(unittest.TestResult())
    theirs.base64 = base64
    return list({repr(call): call for call in calls}.values())


def is_refused(call: Call) -> bool:
    name, arguments, words = call
    try:
        getattr(base64, name)(*arguments, **words)
    except (ValueError, TypeError):
        return True
    return False


def ratio_of_call(call: Call) -> float:
    name, arguments, words = call

    def timer(function: Callable[..., Any]) -> timeit.Timer:
        def run() -> None:
            try:
                function(*arguments, **words)
            except (ValueError, TypeError):
                pass

        return timeit.Timer(run)

    return ratio(timer(getattr(compat, name)), timer(getattr(base64, name)))


def print_greatest(what: str, calls: List[Call]) -> None:
    runs = [[ratio_of_call(it) for it in calls] for _ in range(3)]
    found, call = max(zip(map(statistics.median, zip(*runs)), calls), key=lambda it: it[0])
    name, arguments, words = call
    said = [*map(repr, arguments), *(f"{key}={value!r}" for key, value in words.items())]
    print(f"{len(calls)} calls of the tests {what}, at most {found:.2f}: {name}({', '.join(said)})")


def main() -> None:
    columns = [list(rows(size)) for size in SIZES.values()]
    print(f"| Bytes of data | {' | '.join(SIZES)} |\n{'|---' * (len(SIZES) + 1)}|")
    for row in zip(*columns):
        cells = (max(ratio_of_text(call, it) for text in texts for it in (text, text.decode()))
                 for _, call, texts in row)
        print(f"| {row[0][0]} | {' | '.join(f'{cell:.2f}' for cell in cells)} |")
    calls = calls_of_tests()
    print_greatest("that return", [it for it in calls if not is_refused(it)])
    print_greatest("that raise", [it for it in calls if is_refused(it)])


if __name__ == "__main__":
    main()
