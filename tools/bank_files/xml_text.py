"""Reads an XML text from outside, within limits: no document type, no entities, nothing from elsewhere."""

from __future__ import annotations

import codecs
import re
from xml.etree.ElementTree import Element, ParseError, TreeBuilder
from xml.parsers.expat import errors

from .texts import Fault, shown

# A statement is some 12 deep, and an entry has some 70 elements.
MOST_DEEP = 50
MOST_ELEMENTS = 2_000_000
NOT_INSTALLED = """this needs Python's defusedxml, which isn't installed for /usr/bin/python3; on Debian:
    apt-get install python3-defusedxml"""
UTF_8_MARK = b"\xef\xbb\xbf"
# The marks in front of a text in UTF-16 or UTF-8, or the first sign of one in UTF-16 without a mark.
MARKS = (b"\xff\xfe", b"\xfe\xff", UTF_8_MARK, b"\x00<")
# The encoding that a text declares, one sign a byte or UTF-8: <?xml version="1.0" encoding="ISO-8859-1"?>
DECLARED = re.compile(rb"""<\?xml\s[^>]*?encoding\s*=\s*["']([A-Za-z0-9._-]+)["']""")
# Control characters that no bank writes, and as which a byte of windows-1252 is read in ISO-8859.
CONTROLS = re.compile("[\x80-\x9f]")
# How expat says that a text stops before its end.
CUT_OFF = {
    errors.codes[error]
    for error in (errors.XML_ERROR_NO_ELEMENTS, errors.XML_ERROR_UNCLOSED_TOKEN,
                  errors.XML_ERROR_PARTIAL_CHAR, errors.XML_ERROR_UNCLOSED_CDATA_SECTION)
}


class LimitedBuilder(TreeBuilder):
    """Builds the tree of a text, as long as it isn't too deep or too large."""

    def __init__(self, name: str):
        super().__init__()
        self.name, self.depth, self.count = name, 0, 0

    def start(self, tag, attributes):
        self.depth += 1
        self.count += 1
        if self.depth > MOST_DEEP or self.count > MOST_ELEMENTS:
            raise Fault(f"{self.name}: too many XML elements, or too deep within each other")
        return super().start(tag, attributes)

    def end(self, tag):
        self.depth -= 1
        return super().end(tag)


def read_root(name: str, content: bytes) -> Element:
    """The root element of a text."""
    try:
        from defusedxml import DefusedXmlException
        from defusedxml.ElementTree import DefusedXMLParser
    except ImportError:
        raise Fault(NOT_INSTALLED) from None
    check_beginning(name, content)
    # A text with the mark is in UTF-8 whatever it declares, as one that an editor has saved.
    encoding = "utf-8" if content.startswith(UTF_8_MARK) else None
    parser = DefusedXMLParser(target=LimitedBuilder(name), encoding=encoding, forbid_dtd=True)
    try:
        parser.feed(content)
        root = parser.close()
    except DefusedXmlException:
        raise Fault(f"{name}: it declares a document type or entities, as no bank does; "
                    "it isn't read") from None
    except ParseError as error:
        raise Fault(f"{name}: {why_not_parsed(content, error)}") from None
    except (LookupError, ValueError) as why:
        raise Fault(f"{name}: its encoding isn't read: {shown(str(why))}") from None
    check_encoding(name, content)
    return root


def check_encoding(name: str, content: bytes) -> None:
    """Refuses a text that was read in the encoding that it declares, and is in another one."""
    declared = DECLARED.match(content)
    if declared is None or content.isascii():
        return
    encoding = declared[1].decode()
    if codecs.lookup(encoding).name == "utf-8":
        return
    if is_utf8(content) or CONTROLS.search(content.decode(encoding, "replace")):
        raise Fault(f"{name}: its bytes aren't {encoding}, which it declares; it is UTF-8 or windows-1252, or damaged")


def check_beginning(name: str, content: bytes) -> None:
    """Names what is often given in the place of XML."""
    if not content.strip():
        raise Fault(f"{name}: the file is empty")
    if content.startswith(b"%PDF"):
        raise Fault(f"{name}: a PDF; the statement is wanted as camt.053, in XML")
    if not content.startswith(MARKS) and not content.lstrip().startswith(b"<"):
        raise Fault(f"{name}: no XML; the statement is wanted as camt.053, not as CSV or MT940")


def why_not_parsed(content: bytes, error: ParseError) -> str:
    line = error.position[0]
    if error.code in CUT_OFF:
        return f"the XML stops in line {line}, before its end: the file isn't whole"
    if error.code == errors.codes[errors.XML_ERROR_INVALID_TOKEN] and not is_utf8(content):
        return (f"line {line} has bytes that aren't UTF-8, and the file doesn't declare another encoding: "
                "it is Latin-1 or the like, or damaged")
    return f"no XML: line {line}, column {error.position[1] + 1}: {errors.messages[error.code]}"


def is_utf8(content: bytes) -> bool:
    try:
        content.decode()
    except UnicodeDecodeError:
        return False
    return True
