"""Files: read whole, unpacked where they are packed by gzip; and written beside their place, then moved there."""
import gzip
import os
import stat
import sys
import tempfile
import zlib
from contextlib import contextmanager
from pathlib import Path

from srp.faults import Fault

GZIP = bytes.fromhex("1f8b08")

# Files that are no input, by their first octets. Records begin with any Bridge ID, so these are as long as they can be.
PACKED = {b"BZh": "bzip2", b"\xfd7zXZ\0": "xz", b"\x28\xb5\x2f\xfd": "zstd", b"PK\3\4": "zip", b"7z\xbc\xaf\x27\x1c": "7z"}
FOREIGN = {b"snoop\0\0\0": "a capture of snoop", b"GMBU": "a capture of Network Monitor", b"RTSS": "a capture of Network Monitor",
           b"\x7fELF": "a program", b"\x89PNG\r\n\x1a\n": "a picture", b"%PDF-": "a PDF document"}
WIDE = (b"\xff\xfe", b"\xfe\xff")


def octets_of(path):
    """The octets of a file, or with `-` those of standard input; unpacked where they are packed by gzip."""
    try:
        octets = sys.stdin.buffer.read() if path == "-" else Path(path).read_bytes()
    except OSError as fault:
        raise Fault(f"{path}: {fault.strerror}") from None
    if not octets.startswith(GZIP):
        return octets
    try:
        return gzip.decompress(octets)
    except (OSError, EOFError, zlib.error) as fault:
        raise Fault(f"{path} cannot be unpacked: {fault}") from None


def unpacked_name(path):
    """A file's name without gzip's ending."""
    return path.removesuffix(".gz")


def is_wide_text(octets):
    """Whether octets are a text in UTF-16."""
    try:
        return octets.startswith(WIDE) and all(letter.isprintable() or letter.isspace() for letter in octets.decode("utf-16"))
    except UnicodeDecodeError:
        return False


def check_octets(name, octets):
    """Whether octets may be an input; what else they are is said."""
    if not octets:
        raise Fault(f"{name} is empty")
    if is_wide_text(octets):
        raise Fault(f"{name} is a text in UTF-16, and a text is in UTF-8")
    for first, kind in PACKED.items():
        if octets.startswith(first):
            raise Fault(f"{name} is packed by {kind}; what is packed by gzip is read, all else is unpacked first")
    for first, kind in FOREIGN.items():
        if octets.startswith(first):
            raise Fault(f"{name} is {kind}; an input is a text, records, or a capture (pcap, pcapng)")


def check_apart(given, out):
    """Whether a file to write is another than the one that is read."""
    if out != "-" and os.path.exists(given) and os.path.exists(out) and os.path.samefile(given, out):
        raise Fault(f"{out} is the input itself, and would be written over")


def is_plain(path):
    """Whether a path is that of a file that can be moved into its place: no device and no pipe."""
    return not os.path.exists(path) or stat.S_ISREG(os.stat(path).st_mode)


def mode_of(path):
    """The permissions of a file that is there; those of a new one where it isn't."""
    if os.path.exists(path):
        return stat.S_IMODE(os.stat(path).st_mode)
    mask = os.umask(0)
    os.umask(mask)
    return 0o666 & ~mask


@contextmanager
def written(path):
    """A file of octets to write. It stands beside its place until all is written, so that nothing is left of a run that ends
    before, and the old one stays until then."""
    try:
        if not is_plain(path):
            with open(path, "wb") as file:
                yield file
            return
        place = os.path.realpath(path)
        with tempfile.NamedTemporaryFile(dir=os.path.dirname(place), prefix=f".{os.path.basename(place)}.", delete=False) as file:
            try:
                yield file
                file.flush()
                os.chmod(file.name, mode_of(place))
                os.replace(file.name, place)
            except BaseException:
                os.unlink(file.name)
                raise
    except OSError as fault:
        raise Fault(f"{path}: {fault.strerror}") from None
