"""The calls of the standard module `base64` for base64, base32 and hexadecimal.

They take the same arguments, and return the same results and types of errors:

    from data_encoding import compat as base64

An invalid text raises `binascii.Error`. Its `__cause__` is the DecodeError with the position,
except if the padding is wrong without `validate`. docs/PYTHON.md lists the differences.
"""

from __future__ import annotations

import binascii
import functools
from typing import TYPE_CHECKING, List, Optional, Tuple, Union

from . import BASE32, BASE32HEX, BASE64, BASE64URL, HEXUPPER, HEXUPPER_PERMISSIVE
from . import DecodeError, Encoding

if TYPE_CHECKING:
    from _typeshed import ReadableBuffer

    _Text = Union[str, ReadableBuffer]
    # Bytes with a length, which a ReadableBuffer may lack.
    _Bytes = Union[bytes, bytearray, memoryview]

__all__ = [
    "b16decode",
    "b16encode",
    "b32decode",
    "b32encode",
    "b32hexdecode",
    "b32hexencode",
    "b64decode",
    "b64encode",
    "decodebytes",
    "encodebytes",
    "standard_b64decode",
    "standard_b64encode",
    "urlsafe_b64decode",
    "urlsafe_b64encode",
]


def __dir__() -> List[str]:
    """Returns the public names, without the imported ones."""
    return __all__ + [it for it in globals() if it.startswith("__")]


_FROM_URL = bytes.maketrans(b"-_", b"+/")


def _as_there(encoding: Encoding) -> Encoding:
    """Returns the encoding as `base64` has it: a single text, with any trailing bits."""
    asked = encoding.specification()
    asked["concatenate"] = False
    asked["check_trailing_bits"] = False
    return Encoding(**asked)


def _unpadded(translate: Tuple[str, str] = ("", "")) -> Encoding:
    """Returns base64 without padding, which ignores all characters that are not symbols."""
    symbols = BASE64.specification()["symbols"]
    others = set(map(chr, range(128))).difference(symbols, translate[0], "=")
    return Encoding(
        symbols, ignore="".join(others), translate=translate, check_trailing_bits=False
    )


_BASE64 = _as_there(BASE64)
_BASE32 = _as_there(BASE32)
_BASE32HEX = _as_there(BASE32HEX)
_LINES = Encoding(BASE64.specification()["symbols"], padding="=", wrap=(76, "\n"))

# Calling a bound method takes less time than finding it.
_encode_base64 = BASE64.encode_bytes
_encode_base64url = BASE64URL.encode_bytes
_encode_hex = HEXUPPER.encode_bytes
_decode_unpadded = _unpadded()._decode_unpadded
_decode_unpadded_url = _unpadded(("-_", "+/"))._decode_unpadded


def _bytes_of(text: _Text) -> bytes:
    # This finds out sooner than `isinstance` does.
    if type(text) is bytes:
        return text
    if isinstance(text, str):
        try:
            return text.encode("ascii")
        except UnicodeEncodeError:
            raise ValueError("string argument should contain only ASCII characters") from None
    try:
        return memoryview(text).tobytes()
    except TypeError:
        raise TypeError(
            "argument should be a bytes-like object or ASCII string, not "
            f"{type(text).__name__!r}"
        ) from None


@functools.lru_cache(maxsize=16)
def _table_from(altchars: _Text) -> bytes:
    """Returns the table that translates `altchars` to `+` and `/`."""
    others = _bytes_of(altchars)
    assert len(others) == 2, repr(others)
    return bytes.maketrans(others, b"+/")


def _decoded(encoding: Encoding, text: _Text) -> bytes:
    data, _, kind, position = encoding._decode_parts(text)
    if kind is None:
        return data
    _bytes_of(text)  # raises ValueError for a character that is not ASCII
    fault = DecodeError(kind, position, data)
    raise binascii.Error(str(fault)) from fault


def b64encode(s: ReadableBuffer, altchars: Optional[_Bytes] = None) -> bytes:
    """Encodes bytes-like data as base64. `altchars`, two bytes, replace `+` and `/`."""
    text = _encode_base64(s)
    if altchars is None:
        return text
    assert len(altchars) == 2, repr(altchars)
    return text.translate(bytes.maketrans(b"+/", altchars))


def b64decode(
    s: _Text, altchars: Optional[_Text] = None, validate: bool = False
) -> bytes:
    """Decodes a base64 text, an ASCII string or bytes-like.

    Without `validate`, skips bytes that are not symbols, and ignores everything after the padding.
    Raises binascii.Error if the padding is wrong or, with `validate`, if a byte is not a symbol.
    """
    text = s
    if altchars is not None:
        others = altchars if type(altchars) is str else _bytes_of(altchars)
        text = _bytes_of(s).translate(_table_from(others))
    if validate:
        return _decoded(_BASE64, text)
    data = _decode_unpadded(text)
    # Otherwise padding is missing or between symbols, or a byte is not ASCII.
    return binascii.a2b_base64(_bytes_of(text)) if data is None else data


def standard_b64encode(s: ReadableBuffer) -> bytes:
    """Encodes bytes-like data as base64."""
    return _encode_base64(s)


def standard_b64decode(s: _Text) -> bytes:
    """Decodes a base64 text, like `b64decode`."""
    return b64decode(s)


def urlsafe_b64encode(s: ReadableBuffer) -> bytes:
    """Encodes bytes-like data as base64 with `-` and `_`."""
    return _encode_base64url(s)


def urlsafe_b64decode(s: _Text) -> bytes:
    """Decodes a base64 text with `-` and `_`, like `b64decode`."""
    data = _decode_unpadded_url(s)
    return b64decode(_bytes_of(s).translate(_FROM_URL)) if data is None else data


def b32encode(s: ReadableBuffer) -> bytes:
    """Encodes bytes-like data as base32."""
    return BASE32.encode_bytes(s)


def b32decode(s: _Text, casefold: bool = False, map01: Optional[_Text] = None) -> bytes:
    """Decodes a base32 text, an ASCII string or bytes-like.

    With `casefold`, also reads lower case. With `map01`, which is `I` or `L`, reads 0 as `O` and 1
    as that letter. Raises binascii.Error if the text is invalid.
    """
    text = s
    if map01 is not None:
        letter = _bytes_of(map01)
        assert len(letter) == 1, repr(letter)
        text = _bytes_of(s).translate(bytes.maketrans(b"01", b"O" + letter))
    return _decoded(_BASE32, _bytes_of(text).upper() if casefold else text)


def b32hexencode(s: ReadableBuffer) -> bytes:
    """Encodes bytes-like data as base32hex."""
    return BASE32HEX.encode_bytes(s)


def b32hexdecode(s: _Text, casefold: bool = False) -> bytes:
    """Decodes a base32hex text. With `casefold`, also reads lower case."""
    return _decoded(_BASE32HEX, _bytes_of(s).upper() if casefold else s)


def b16encode(s: ReadableBuffer) -> bytes:
    """Encodes bytes-like data as hexadecimal in upper case."""
    return _encode_hex(s)


def b16decode(s: _Text, casefold: bool = False) -> bytes:
    """Decodes a hexadecimal text. With `casefold`, also reads lower case."""
    return _decoded(HEXUPPER_PERMISSIVE if casefold else HEXUPPER, s)


def _needs_bytes(s: ReadableBuffer) -> None:
    """Raises TypeError, as `base64` does, for anything but a row of single bytes."""
    name = type(s).__name__
    try:
        view = memoryview(s)
    except TypeError:
        raise TypeError(f"expected bytes-like object, not {name}") from None
    if view.format not in ("c", "b", "B"):
        raise TypeError(f"expected single byte elements, not {view.format!r} from {name}")
    if view.ndim != 1:
        raise TypeError(f"expected 1-D data, not {view.ndim}-D data from {name}")


def encodebytes(s: ReadableBuffer) -> bytes:
    """Encodes bytes-like data as base64 in lines of 76 characters, each with a line feed."""
    _needs_bytes(s)
    return _LINES.encode_bytes(s)


def decodebytes(s: ReadableBuffer) -> bytes:
    """Decodes a base64 text in lines, which is bytes-like, like `b64decode`."""
    _needs_bytes(s)
    return b64decode(s)
