// The eighteen, each by its name, so that a bundle has what a program names.

import { Encoding } from "./encoding.js";

/** Hexadecimal with the letters a to f. */
export const HEXLOWER = Encoding.named("HEXLOWER");

/** Hexadecimal with the letters a to f, which reads A to F as these. */
export const HEXLOWER_PERMISSIVE = Encoding.named("HEXLOWER_PERMISSIVE");

/** Hexadecimal with the letters A to F. */
export const HEXUPPER = Encoding.named("HEXUPPER");

/** Hexadecimal with the letters A to F, which reads a to f as these. */
export const HEXUPPER_PERMISSIVE = Encoding.named("HEXUPPER_PERMISSIVE");

/** Base32 with padding: RFC 4648, section 6. */
export const BASE32 = Encoding.named("BASE32");

/** Base32 without padding. */
export const BASE32_NOPAD = Encoding.named("BASE32_NOPAD");

/** Base32 without padding, which reads lower case as upper case. */
export const BASE32_NOPAD_NOCASE = Encoding.named("BASE32_NOPAD_NOCASE");

/** Base32 without padding, which reads 0, 1, l and 8 as the letters they look like. */
export const BASE32_NOPAD_VISUAL = Encoding.named("BASE32_NOPAD_VISUAL");

/** Base32hex with padding: RFC 4648, section 7. */
export const BASE32HEX = Encoding.named("BASE32HEX");

/** Base32hex without padding. */
export const BASE32HEX_NOPAD = Encoding.named("BASE32HEX_NOPAD");

/** Base32hex of DNSSEC, in lower case, which reads upper case too. */
export const BASE32_DNSSEC = Encoding.named("BASE32_DNSSEC");

/** Base32 of DNSCurve, the least significant bit first. */
export const BASE32_DNSCURVE = Encoding.named("BASE32_DNSCURVE");

/** Base64 with padding: RFC 4648, section 4. */
export const BASE64 = Encoding.named("BASE64");

/** Base64 without padding. */
export const BASE64_NOPAD = Encoding.named("BASE64_NOPAD");

/** Base64 in lines of 76 characters, as in MIME, which ignores CR and LF. */
export const BASE64_MIME = Encoding.named("BASE64_MIME");

/** The same, which does not check trailing bits. */
export const BASE64_MIME_PERMISSIVE = Encoding.named("BASE64_MIME_PERMISSIVE");

/** Base64url with padding: RFC 4648, section 5. */
export const BASE64URL = Encoding.named("BASE64URL");

/** Base64url without padding. */
export const BASE64URL_NOPAD = Encoding.named("BASE64URL_NOPAD");
