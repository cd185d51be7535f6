"""Base encodings with proofs: data as text over an alphabet of symbols, and back.

>>> BASE64.encode(b"Hello")
'SGVsbG8='
>>> BASE64.decode("SGVsbG8=")
b'Hello'
>>> Encoding(symbols="01234567", padding="=").encode(b"Hi")
'220644=='
>>> Encoding.named("BASE32_NOPAD").encode(b"Hi")
'JBUQ'

Make an Encoding once and keep it: making one takes longer than using it.
"""

import codecs
import io
from typing import (
    Any, Dict, List, NamedTuple, Optional, Protocol, Tuple, TypedDict, Union, final,
)

from . import _native

__all__ = [
    "BASE32",
    "BASE32HEX",
    "BASE32HEX_NOPAD",
    "BASE32_DNSCURVE",
    "BASE32_DNSSEC",
    "BASE32_NOPAD",
    "BASE32_NOPAD_NOCASE",
    "BASE32_NOPAD_VISUAL",
    "BASE64",
    "BASE64URL",
    "BASE64URL_NOPAD",
    "BASE64_MIME",
    "BASE64_MIME_PERMISSIVE",
    "BASE64_NOPAD",
    "DecodeError",
    "Decoder",
    "Encoder",
    "Encoding",
    "HEXLOWER",
    "HEXLOWER_PERMISSIVE",
    "HEXUPPER",
    "HEXUPPER_PERMISSIVE",
    "Partial",
    "Specification",
    "__version__",
]

__version__ = _native.version


def __dir__() -> List[str]:
    """Returns the public names, without the imported ones."""
    found = globals()
    return [it for it in found if it in __all__ or it == "compat" or it.startswith("__")]


_Bytes = Union[bytes, bytearray, memoryview]

# How much a stream reads at once, about.
_BLOCK = 1 << 18


class _Source(Protocol):
    """A file object that is read."""

    def read(self, size: int, /) -> Union[bytes, str, None]: ...


class _Target(Protocol):
    """A file object that bytes are written to. It may return how many of them it took."""

    def write(self, data: memoryview, /) -> Optional[int]: ...


class _TextTarget(Protocol):
    """A file object that text is written to."""

    def write(self, text: str, /) -> int: ...


_FAULTS = {
    "length": "invalid length",
    "symbol": "invalid symbol",
    "trailing": "non-zero trailing bits",
    "padding": "invalid padding length",
}


class DecodeError(ValueError):
    """Raised if a text can't be decoded.

    `kind` is "length", "symbol", "trailing" or "padding". `position` is the index of the invalid
    character, from 0. For an invalid length in an encoding that ignores no character, it is the
    greatest valid length below it. `data` is the data that the call decoded before the fault.
    """

    def __init__(self, kind: str, position: int, data: bytes = b"") -> None:
        super().__init__(kind, position, data)
        self.kind = kind
        self.position = position
        self.data = data

    def __str__(self) -> str:
        return f"{_FAULTS.get(self.kind, self.kind)} at {self.position}"

    def __repr__(self) -> str:
        """Leaves out the data, which may be long or secret."""
        return f"{type(self).__name__}({self.kind!r}, {self.position})"


class Partial(NamedTuple):
    """The result of decoding as much of a text as possible."""

    data: bytes
    """The data of the first `read` characters."""

    read: int
    """The number of characters that were decoded."""

    error: Optional[DecodeError]
    """The fault of the text, or None if the text is valid."""


class Specification(TypedDict):
    """The parameters of an encoding: the arguments of `Encoding`."""

    symbols: str
    padding: Optional[str]
    ignore: str
    wrap: Tuple[int, str]
    translate: Tuple[str, str]
    least_significant_first: bool
    check_trailing_bits: bool
    concatenate: bool


def _read(source: _Source, size: int) -> Union[bytes, str]:
    piece = source.read(size)
    if piece is None:
        raise BlockingIOError("the source has nothing to read yet")
    return piece


def _read_data(source: _Source, size: int) -> bytes:
    """Reads `size` bytes, or fewer at the end of the source."""
    pieces = []
    while size > 0:
        piece = _read(source, size)
        if not isinstance(piece, (bytes, bytearray)):
            raise TypeError(f"data is read as bytes, not as {type(piece).__name__}")
        if not piece:
            break
        pieces.append(piece)
        size -= len(piece)
    return pieces[0] if len(pieces) == 1 else b"".join(pieces)


def _write(target: Any, data: Union[bytes, str]) -> None:
    left = data if isinstance(data, str) else memoryview(data)
    while left:
        count = target.write(left)
        # A raw file may take a part, or, if it does not block, nothing.
        if count == 0:
            raise BlockingIOError("the target takes nothing yet")
        left = left[len(left) if count is None else count :]


def _text(name: str, value: object) -> bytes:
    if not isinstance(value, str):
        raise TypeError(f"{name} has to be a str, not {type(value).__name__}")
    # The library would count the bytes of such a character.
    if not value.isascii():
        raise ValueError("non-ascii character")
    return value.encode("ascii")


def _pair(name: str, value: object) -> Tuple[Any, Any]:
    if not isinstance(value, (tuple, list)) or len(value) != 2:
        raise TypeError(f"{name} has to be a tuple or list of two")
    return value[0], value[1]


def _padding(value: object) -> int:
    if value is None:
        return -1
    if not isinstance(value, str):
        raise TypeError(f"padding has to be a str or None, not {type(value).__name__}")
    if len(value) != 1:
        raise ValueError("the padding is not one character")
    return ord(value)


def _width(value: object) -> int:
    if not isinstance(value, int) or isinstance(value, bool):
        raise TypeError(f"the width of wrap has to be an int, not {type(value).__name__}")
    if value < 0:
        raise ValueError("the width of wrap is below 0")
    # Any width above 255 is refused.
    return min(value, 256)


@final
class Encoding(_native.Calls):
    """A way to write data as text, and to read it back.

    An encoding is immutable, and threads may share it. Two are equal if their layouts are equal.
    """

    __slots__ = ()

    def __new__(
        cls,
        symbols: str,
        *,
        padding: Optional[str] = None,
        ignore: str = "",
        wrap: Union[Tuple[int, str], List[Union[int, str]]] = (0, ""),
        translate: Union[Tuple[str, str], List[str]] = ("", ""),
        least_significant_first: bool = False,
        check_trailing_bits: bool = True,
        concatenate: bool = True,
    ) -> "Encoding":
        """Makes an encoding of 2, 4, 8, 16, 32 or 64 ASCII symbols, in order of value.

        `padding` is the character that fills the last group of a text. Decoding ignores the
        characters of `ignore`. `wrap` is the number of characters of a line, and the separator
        after each line. Each character of the first text of `translate` is decoded like the
        character of the second at the same index. Raises ValueError if these are invalid.
        """
        width, separator = _pair("wrap", wrap)
        source, target = _pair("translate", translate)
        return cls._specified(
            _text("symbols", symbols),
            _padding(padding),
            _text("ignore", ignore),
            _width(width),
            _text("the separator of wrap", separator),
            _text("translate", source),
            _text("translate", target),
            least_significant_first,
            check_trailing_bits,
            concatenate,
            -1,
        )

    @staticmethod
    def names() -> List[str]:
        """Returns the names of the predefined encodings."""
        return list(_PREDEFINED)

    @staticmethod
    def named(name: str) -> "Encoding":
        """Returns a predefined encoding, as "BASE64". Raises ValueError for an unknown name."""
        if not isinstance(name, str):
            raise TypeError(f"a name has to be a str, not {type(name).__name__}")
        found = _PREDEFINED.get(name)
        if found is None:
            raise ValueError(f"unknown encoding: {name}")
        return found

    @staticmethod
    def from_layout(layout: _Bytes) -> "Encoding":
        """Returns the encoding with this layout. Raises ValueError for bytes that are not one."""
        encoding = Encoding._of_layout(layout)
        name = _NAMES.get(encoding._layout())
        return encoding if name is None else _PREDEFINED[name]

    @property
    def name(self) -> Optional[str]:
        """The name of the predefined encoding that this one equals, or None."""
        return _NAMES.get(self._layout())

    @property
    def layout(self) -> bytes:
        """The layout: bytes that describe the encoding completely, to store or send."""
        return self._layout()

    def specification(self) -> Specification:
        """Returns the parameters of this encoding: `Encoding(**it.specification()) == it`."""
        return _specification(self._layout())

    def decode_partial(self, text: Union[str, _Bytes]) -> Partial:
        """Decodes `text` up to its fault, if it has one. Raises no DecodeError."""
        data, read, kind, position = self._decode_parts(text)
        error = None if kind is None else DecodeError(kind, position, data)
        return Partial(data, read, error)

    def encode_stream(self, source: _Source, target: Union[_Target, _TextTarget]) -> None:
        """Encodes the rest of the binary file `source` to the file `target`, in pieces."""
        is_text = isinstance(target, io.TextIOBase)
        size = _BLOCK - _BLOCK % self.encode_align
        whole = True
        while whole:
            data = _read_data(source, size)
            _write(target, self.encode(data) if is_text else self.encode_bytes(data))
            whole = len(data) == size

    def decode_stream(self, source: _Source, target: _Target) -> None:
        """Decodes the rest of the file `source` to the binary file `target`, in pieces.

        Raises DecodeError if the text is invalid, with the position in the whole text and no data:
        the data before the fault is written to `target`.
        """
        decoder = Decoder(self)
        piece = _read(source, _BLOCK)
        while piece:
            _write(target, decoder.decode(piece))
            piece = _read(source, _BLOCK)
        _write(target, decoder.decode(b"", final=True))

    @property
    def encode_align(self) -> int:
        """The block size in bytes of data. If data is cut at multiples of it, the joined texts of
        the pieces are the text of the whole."""
        layout = self._layout()
        bits = layout[_FLAGS] & _BIT_WIDTH
        width = layout[_LINES] if len(layout) > _LINES else 0
        return width * bits // 8 if width > 0 else bits // (bits & -bits)

    def __str__(self) -> str:
        return self.name or repr(self)

    def __repr__(self) -> str:
        name = self.name
        if name is not None:
            return f"Encoding.{name.lower()}()"
        asked = dict(self.specification())
        symbols = asked.pop("symbols")
        words = [f"{key}={value!r}" for key, value in asked.items() if value != _DEFAULTS[key]]
        return f"Encoding({', '.join([repr(symbols)] + words)})"

    def __eq__(self, other: object) -> bool:
        if not isinstance(other, Encoding):
            return NotImplemented
        return self is other or self._layout() == other._layout()

    def __hash__(self) -> int:
        return hash(self._layout())

    def __reduce__(self) -> Tuple[Any, ...]:
        name = self.name
        if name is not None:
            return Encoding.named, (name,)
        return Encoding.from_layout, (self._layout(),)

    def __copy__(self) -> "Encoding":
        return self

    def __deepcopy__(self, memo: object) -> "Encoding":
        return self

    @staticmethod
    def hexlower() -> "Encoding":
        """Hexadecimal with the letters a to f."""
        return HEXLOWER

    @staticmethod
    def hexlower_permissive() -> "Encoding":
        """Hexadecimal with the letters a to f, which also reads A to F."""
        return HEXLOWER_PERMISSIVE

    @staticmethod
    def hexupper() -> "Encoding":
        """Hexadecimal with the letters A to F."""
        return HEXUPPER

    @staticmethod
    def hexupper_permissive() -> "Encoding":
        """Hexadecimal with the letters A to F, which also reads a to f."""
        return HEXUPPER_PERMISSIVE

    @staticmethod
    def base32() -> "Encoding":
        """Base32 with padding: RFC 4648, section 6."""
        return BASE32

    @staticmethod
    def base32_nopad() -> "Encoding":
        """Base32 without padding."""
        return BASE32_NOPAD

    @staticmethod
    def base32_nopad_nocase() -> "Encoding":
        """Base32 without padding, which also reads lower case."""
        return BASE32_NOPAD_NOCASE

    @staticmethod
    def base32_nopad_visual() -> "Encoding":
        """Base32 without padding, which reads 0, 1, l and 8 as the letters they look like."""
        return BASE32_NOPAD_VISUAL

    @staticmethod
    def base32hex() -> "Encoding":
        """Base32hex with padding: RFC 4648, section 7."""
        return BASE32HEX

    @staticmethod
    def base32hex_nopad() -> "Encoding":
        """Base32hex without padding."""
        return BASE32HEX_NOPAD

    @staticmethod
    def base32_dnssec() -> "Encoding":
        """Base32hex in lower case, as in DNSSEC, which also reads upper case."""
        return BASE32_DNSSEC

    @staticmethod
    def base32_dnscurve() -> "Encoding":
        """Base32 with the least significant bit first, as in DNSCurve."""
        return BASE32_DNSCURVE

    @staticmethod
    def base64() -> "Encoding":
        """Base64 with padding: RFC 4648, section 4."""
        return BASE64

    @staticmethod
    def base64_nopad() -> "Encoding":
        """Base64 without padding."""
        return BASE64_NOPAD

    @staticmethod
    def base64_mime() -> "Encoding":
        """Base64 in lines of 76 characters, as in MIME, which ignores CR and LF."""
        return BASE64_MIME

    @staticmethod
    def base64_mime_permissive() -> "Encoding":
        """Like BASE64_MIME, but accepts any trailing bits."""
        return BASE64_MIME_PERMISSIVE

    @staticmethod
    def base64url() -> "Encoding":
        """Base64url with padding: RFC 4648, section 5."""
        return BASE64URL

    @staticmethod
    def base64url_nopad() -> "Encoding":
        """Base64url without padding."""
        return BASE64URL_NOPAD


Encoding._adopt()

# A layout has 256 symbols, repeated, then the meaning of each byte, the padding, the bits of a
# symbol with flags, and the lines.
_MEANINGS = 256
_PADDING = 512
_FLAGS = 513
_LINES = 514
_NO_MEANING = 128
_IGNORED = 129
_PADS = 130
_BIT_WIDTH = 7
_MOST_SIGNIFICANT_FIRST = 8
_CHECK_TRAILING_BITS = 16
_ONE_TEXT = 32


def _specification(layout: bytes) -> Specification:
    flags = layout[_FLAGS]
    symbols = layout[: 1 << (flags & _BIT_WIDTH)].decode("ascii")
    padding = chr(layout[_PADDING]) if layout[_PADDING] != _NO_MEANING else None
    lines = layout[_LINES:]
    wrapped = len(lines) > 1
    ignore, source, target = "", "", ""
    for byte, meaning in enumerate(layout[_MEANINGS:_PADDING]):
        if meaning == _IGNORED:
            ignore += chr(byte)
        elif meaning != _NO_MEANING:
            read_as = padding if meaning == _PADS else symbols[meaning]
            if read_as is not None and read_as != chr(byte):
                source += chr(byte)
                target += read_as
    return {
        "symbols": symbols,
        "padding": padding,
        "ignore": ignore,
        "wrap": (lines[0], lines[1:].decode("ascii")) if wrapped else (0, ""),
        "translate": (source, target),
        "least_significant_first": not flags & _MOST_SIGNIFICANT_FIRST,
        "check_trailing_bits": bool(flags & _CHECK_TRAILING_BITS),
        "concatenate": not flags & _ONE_TEXT,
    }


_DEFAULTS: Dict[str, object] = {
    "padding": None,
    "ignore": "",
    "wrap": (0, ""),
    "translate": ("", ""),
    "least_significant_first": False,
    "check_trailing_bits": True,
    "concatenate": True,
}

_PREDEFINED: Dict[str, Encoding] = {}
_NAMES: Dict[bytes, str] = {}


def _predefined(
    name: str,
    symbols: bytes,
    padding: Optional[str] = None,
    wrap: Tuple[int, bytes] = (0, b""),
    translate: Tuple[bytes, bytes] = (b"", b""),
    least_significant_first: bool = False,
    check_trailing_bits: bool = True,
) -> Encoding:
    """Makes the predefined encoding of the name, and registers it."""
    encoding = Encoding._specified(
        symbols, _padding(padding), b"", *wrap, *translate, least_significant_first,
        check_trailing_bits, True, _native.names().index(name),
    )
    _PREDEFINED[name] = encoding
    _NAMES[encoding.layout] = name
    return encoding


_UPPER = b"ABCDEFGHIJKLMNOPQRSTUVWXYZ"
_LOWER = b"abcdefghijklmnopqrstuvwxyz"
_DIGITS = b"0123456789"
_HEX_LOWER = _DIGITS + _LOWER[:6]
_HEX_UPPER = _DIGITS + _UPPER[:6]
_32 = _UPPER + b"234567"
_32HEX = _DIGITS + _UPPER[:22]
_64 = _UPPER + _LOWER + _DIGITS + b"+/"
_64URL = _UPPER + _LOWER + _DIGITS + b"-_"
_CURVE = b"0123456789bcdfghjklmnpqrstuvwxyz"
_CR_LF = (76, b"\r\n")

HEXLOWER = _predefined("HEXLOWER", _HEX_LOWER)
HEXLOWER_PERMISSIVE = _predefined(
    "HEXLOWER_PERMISSIVE", _HEX_LOWER, translate=(_UPPER[:6], _LOWER[:6])
)
HEXUPPER = _predefined("HEXUPPER", _HEX_UPPER)
HEXUPPER_PERMISSIVE = _predefined(
    "HEXUPPER_PERMISSIVE", _HEX_UPPER, translate=(_LOWER[:6], _UPPER[:6])
)
BASE32 = _predefined("BASE32", _32, "=")
BASE32_NOPAD = _predefined("BASE32_NOPAD", _32)
BASE32_NOPAD_NOCASE = _predefined("BASE32_NOPAD_NOCASE", _32, translate=(_LOWER, _UPPER))
BASE32_NOPAD_VISUAL = _predefined("BASE32_NOPAD_VISUAL", _32, translate=(b"01l8", b"OIIB"))
BASE32HEX = _predefined("BASE32HEX", _32HEX, "=")
BASE32HEX_NOPAD = _predefined("BASE32HEX_NOPAD", _32HEX)
BASE32_DNSSEC = _predefined(
    "BASE32_DNSSEC", _DIGITS + _LOWER[:22], translate=(_UPPER[:22], _LOWER[:22])
)
BASE32_DNSCURVE = _predefined(
    "BASE32_DNSCURVE", _CURVE, translate=(_CURVE[10:].upper(), _CURVE[10:]),
    least_significant_first=True,
)
BASE64 = _predefined("BASE64", _64, "=")
BASE64_NOPAD = _predefined("BASE64_NOPAD", _64)
BASE64_MIME = _predefined("BASE64_MIME", _64, "=", _CR_LF)
BASE64_MIME_PERMISSIVE = _predefined(
    "BASE64_MIME_PERMISSIVE", _64, "=", _CR_LF, check_trailing_bits=False
)
BASE64URL = _predefined("BASE64URL", _64URL, "=")
BASE64URL_NOPAD = _predefined("BASE64URL_NOPAD", _64URL)


def _encoding(value: object) -> Encoding:
    if not isinstance(value, Encoding):
        raise TypeError(f"an Encoding is needed, not {type(value).__name__}")
    return value


def _number(value: object) -> int:
    if not isinstance(value, int):
        raise TypeError(f"a state has to be an int, not {type(value).__name__}")
    return value


class Encoder(codecs.IncrementalEncoder):
    """Encodes data that comes in pieces. The joined results are the text of all the data."""

    def __init__(self, encoding: Encoding, errors: str = "strict") -> None:
        super().__init__(errors)
        self._encoding = _encoding(encoding)
        self._held = b""

    # The base class encodes text as bytes.
    def encode(self, input: _Bytes, final: bool = False) -> str:  # type: ignore[override]
        """Returns the text of the blocks that `input` completes; with `final`, of all the rest."""
        text, held = self._encoding._encoder_read(self._held, input)
        if final:
            text += self._encoding._encoder_finish(held)
            held = b""
        self._held = held
        return text

    def reset(self) -> None:
        """Discards the held bytes, so that new data begins."""
        self._held = b""

    def getstate(self) -> int:
        """Returns the held bytes as a number, which is 0 if there are none."""
        return int.from_bytes(b"\1" + self._held, "big") if self._held else 0

    # The base class has any number or text here.
    def setstate(self, state: int) -> None:  # type: ignore[override]
        """Continues from a state of `getstate`. Raises ValueError if it is not one."""
        state = _number(state)
        marked = state.to_bytes((state.bit_length() + 7) // 8, "big") if state > 0 else b""
        held = marked[1:]
        if state != 0 and (marked[:1] != b"\1" or not held):
            raise ValueError("no encoder")
        # A whole block is refused here.
        _, self._held = self._encoding._encoder_read(held, b"")


class Decoder(codecs.IncrementalDecoder):
    """Decodes a text that comes in pieces.

    Each call returns the data of the groups that are complete. A fault is raised with the last
    piece, and is the fault that `Encoding.decode` raises for the whole text.
    """

    def __init__(self, encoding: Encoding, errors: str = "strict") -> None:
        super().__init__(errors)
        self._encoding = _encoding(encoding)
        self._kept = _native.new_decoder()

    def reset(self) -> None:
        """Discards the text so far, so that a new one begins."""
        self._kept = _native.new_decoder()

    def getstate(self) -> Tuple[bytes, int]:
        """Returns the held bytes of the text, and the whole state as a number."""
        held = self._encoding._decoder_held(self._kept)
        return held, int.from_bytes(self._kept, "little")

    def setstate(self, state: Tuple[bytes, int]) -> None:
        """Continues from a state of `getstate`. Raises ValueError if it is not valid here."""
        _, number = _pair("a state", state)
        try:
            kept = _number(number).to_bytes(len(self._kept), "little")
        except OverflowError:
            raise ValueError("no decoder") from None
        self._encoding._decoder_held(kept)
        self._kept = kept

    # The base class decodes bytes as text.
    def decode(  # type: ignore[override]
        self, input: Union[str, _Bytes], final: bool = False
    ) -> bytes:
        """Returns the data of the groups that `input` completes.

        With `final` the text ends with `input`. Raises DecodeError if the text is then invalid,
        with the position in the whole text and the data that this call decoded. In either case the
        next piece begins a new text.
        """
        data, self._kept = self._encoding._decoder_read(self._kept, input)
        if not final:
            return data
        last, kind, position = self._encoding._decoder_finish(self._kept)
        self.reset()
        if kind is not None:
            raise DecodeError(kind, position, data + last)
        return data + last
