"""Times of calls of the installed package in nanoseconds, beside those of the standard library.

The calls of a row are made in turns. For each the median is printed, and their ratio.
"""

import base64
import statistics
import timeit
from typing import Any, Dict, List

from data_encoding import BASE64, HEXLOWER, Encoding

SIZES = (16, 64, 1024, 65536, 1 << 20, 1 << 22)

# The calls that are compared.
PAIRS = (
    ("BASE64.encode(data)", "base64.b64encode(data)"),
    ("BASE64.decode(text)", "base64.b64decode(text)"),
    ("HEXLOWER.encode(data)", "data.hex()"),
    ("HEXLOWER.decode(digits)", "bytes.fromhex(digits)"),
)


def times(calls: List[str], names: Dict[str, Any], count: int, rounds: int) -> List[float]:
    timers = [timeit.Timer(call, globals=names) for call in calls]
    rows = [[timer.timeit(count) for timer in timers] for _ in range(rounds)]
    return [statistics.median(column) / count * 1e9 for column in zip(*rows)]


def main() -> None:
    print("bytes:", "; ".join(f"{here}, {there}, ratio" for here, there in PAIRS))
    for size in SIZES:
        data = bytes((index * 7 + index // 256) % 256 for index in range(size))
        names = {"BASE64": BASE64, "HEXLOWER": HEXLOWER, "base64": base64, "data": data,
                 "text": BASE64.encode(data), "digits": data.hex()}
        count = max(1, 40_000 // (size + 200))
        calls = [call for pair in PAIRS for call in pair]
        found = times(calls, names, count, 200 if size < 1 << 20 else 40)
        cells = [f"{here:.0f} {there:.0f} {here / there:.2f}"
                 for here, there in zip(found[::2], found[1::2])]
        print(f"{size}: {'; '.join(cells)}")
    found = times(["Encoding.base64()"], {"Encoding": Encoding}, 200, 200)
    print(f"Encoding.base64(): {found[0]:.0f}")


if __name__ == "__main__":
    main()
