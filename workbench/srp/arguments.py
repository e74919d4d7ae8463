"""Arguments of the package's functions: a wrong one is a fault that has its name."""
import operator

from srp.faults import Fault


def number(name, value, most, least=0):
    """A whole number that its field holds."""
    try:
        value = operator.index(value)
    except TypeError:
        raise Fault(f"{name} is {value!r}, where a whole number is expected") from None
    if not least <= value <= most:
        raise Fault(f"{name} is {value}, where {least} to {most} is expected")
    return value


def octets(name, value, most=0xFFFF):
    """Octets, at most so many."""
    if not isinstance(value, (bytes, bytearray, memoryview)):
        raise Fault(f"{name} is {value!r}, where octets (bytes) are expected")
    if len(value) > most:
        raise Fault(f"{name} has {len(value)} octets, where at most {most} are expected")
    return bytes(value)


def text(name, value):
    if not isinstance(value, str):
        raise Fault(f"{name} is {value!r}, where a text (str) is expected")
    return value
