"""The protocols whose frames a bridge takes, MSRP and MMRP: what Ethernet knows a frame by, and where its PDU ends."""
from collections.abc import Callable
from dataclasses import dataclass

from srp.records import RECEIVE, RECEIVE_MMRP

END_MARK = b"\0\0"
LONGEST_PDU = 1500


def behind_end_mark(pdu, at, behind):
    """The place behind an EndMark that stands at a place, or behind the parts that begin there; none where the PDU ends first.
    Behind gives the place behind a part."""
    while at is not None and at + 2 <= len(pdu) and pdu[at:at + 2] != END_MARK:
        at = behind(pdu, at)
    return at + 2 if at is not None and at + 2 <= len(pdu) else None


def behind_msrp_message(pdu, at):
    """By the list's length."""
    return at + 4 + int.from_bytes(pdu[at + 2:at + 4], "big")


def behind_mmrp_message(pdu, at):
    """By the vectors, for the list has no length: it ends at its EndMark."""
    first_value = pdu[at + 1]

    def behind_vector(pdu, at):
        values = int.from_bytes(pdu[at:at + 2], "big") & 0x1FFF
        return at + 2 + first_value + (values + 2) // 3

    return behind_end_mark(pdu, at + 2, behind_vector)


@dataclass(frozen=True)
class Protocol:
    """A protocol: its EtherType and group address (802.1Q, Tables 10-1 and 10-2; 35.2.2), the kind of record that hands over a
    frame of it, and the place behind a Message of its PDUs."""
    name: str
    ethertype: int
    group: bytes
    kind: int
    behind_message: Callable

    def end_of_pdu(self, pdu):
        """The place behind the EndMark of a PDU; none where it has none. What follows is looked at by no bridge: padding, or a
        check sequence."""
        return behind_end_mark(pdu, 1, self.behind_message)

    def without_padding(self, pdu):
        """A PDU without what follows its EndMark. One that is too long stays as it is, since it is refused for that."""
        return pdu[:self.end_of_pdu(pdu)] if len(pdu) <= LONGEST_PDU else pdu


MSRP = Protocol("MSRP", 0x22EA, bytes.fromhex("0180c200000e"), RECEIVE, behind_msrp_message)
MMRP = Protocol("MMRP", 0x88F6, bytes.fromhex("0180c2000020"), RECEIVE_MMRP, behind_mmrp_message)

BY_ETHERTYPE = {protocol.ethertype: protocol for protocol in (MSRP, MMRP)}
BY_KIND = {protocol.kind: protocol for protocol in (MSRP, MMRP)}
