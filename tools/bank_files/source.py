"""The XML texts of a file: the file itself, or the members of a zip, in the order of their names."""

import io
import re
import zipfile
import zlib
from collections import Counter
from typing import BinaryIO

from .texts import UNSHOWN, Fault, shown

# For a file, and for what a zip unpacks to; 10,000 payments take some 25 million.
MOST_BYTES = 33_554_432
MOST_MEMBERS = 1_000
MEMBER_NAME = re.compile(r"[^/\\.][^/\\]{0,199}\.xml", re.IGNORECASE)
ENCRYPTED = 1
ZIP_FAULTS = (zipfile.BadZipFile, zlib.error, EOFError, NotImplementedError, RuntimeError, ValueError)


def read_texts(path: str) -> list[tuple[str, bytes]]:
    """The name and the bytes of each XML text."""
    with open(path, "rb") as file:
        content = file.read(MOST_BYTES + 1)
    if len(content) > MOST_BYTES:
        raise Fault(f"{path}: larger than {MOST_BYTES} bytes")
    if not content.startswith((b"PK\x03\x04", b"PK\x05\x06")):
        return [(path, content)]
    try:
        with zipfile.ZipFile(io.BytesIO(content)) as archive:
            return unpacked(path, archive)
    except ZIP_FAULTS as why:
        raise Fault(f"{path}: a zip that can't be unpacked: {shown(str(why))}") from None


def unpacked(path: str, archive: zipfile.ZipFile) -> list[tuple[str, bytes]]:
    members = sorted(archive.infolist(), key=lambda member: member.filename)
    if not members:
        raise Fault(f"{path}: the zip has no file")
    if len(members) > MOST_MEMBERS:
        raise Fault(f"{path}: the zip has more than {MOST_MEMBERS} files")
    for member in members:
        check_member(path, member)
    (name, count), = Counter(member.filename for member in members).most_common(1)
    if count > 1:
        raise Fault(f"{path}: the zip has {count} files of the name {shown(name)}")
    texts, left = [], MOST_BYTES
    for member in members:
        with archive.open(member) as packed:
            content = read_limited(path, packed, left)
        left -= len(content)
        texts.append((f"{path}, {shown(member.filename)}", content))
    return texts


def check_member(path: str, member: zipfile.ZipInfo) -> None:
    """Refuses what isn't a packed XML file of a plain name."""
    name = shown(member.filename)
    if UNSHOWN.search(member.filename) or not MEMBER_NAME.fullmatch(member.filename):
        raise Fault(f"{path}: the zip has {name or 'a file without a name'}, "
                    "which is no plain name that ends in .xml")
    if member.flag_bits & ENCRYPTED:
        raise Fault(f"{path}: {name} is encrypted; unpack the zip with its password first")
    if member.compress_type not in (zipfile.ZIP_STORED, zipfile.ZIP_DEFLATED):
        raise Fault(f"{path}: {name} is packed in a way that isn't read")


def read_limited(path: str, packed: BinaryIO, most: int) -> bytes:
    """What a member unpacks to, whatever size its zip says."""
    content = packed.read(most + 1)
    if len(content) > most:
        raise Fault(f"{path}: the zip unpacks to more than {MOST_BYTES} bytes")
    return content
