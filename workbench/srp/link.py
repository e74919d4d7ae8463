"""The link layers of packets: Ethernet, and Linux's cooked ones, which a capture of every interface (`-i any`) has."""
from srp.faults import Fault

ETHERNET, COOKED, COOKED_2 = 1, 113, 276
TAGS = {b"\x81\x00", b"\x88\xa8", b"\x91\x00"}


def as_address(octets):
    return ":".join(f"{octet:02x}" for octet in octets)


def behind_tags(octets, at):
    """The EtherType at a place or behind the VLAN tags there, and what follows it."""
    while octets[at:at + 2] in TAGS:
        at += 4
    return int.from_bytes(octets[at:at + 2], "big") if at + 2 <= len(octets) else 0, octets[at + 2:]


def of_ethernet(packet):
    return (packet.octets[6:12], packet.interface, *behind_tags(packet.octets, 12))


def of_cooked(packet):
    """Version 1: the kind of packet, of device, the length of the address, the address in 8 octets, the EtherType."""
    return (packet.octets[6:12], packet.interface, *behind_tags(packet.octets, 14))


def of_cooked_2(packet):
    """Version 2: the EtherType, 2 octets, the interface's index, the kinds of device and packet, the length of the address, and it.
    VLAN tags stand behind all that."""
    octets = packet.octets
    index = int.from_bytes(octets[4:8], "big")
    kind, payload = int.from_bytes(octets[:2], "big"), octets[20:]
    if octets[:2] in TAGS:
        kind, payload = behind_tags(octets, 22)
    return octets[12:18], f"index{index}", kind, payload


LAYERS = {ETHERNET: of_ethernet, COOKED: of_cooked, COOKED_2: of_cooked_2}


def taken_apart(packet):
    """The source address, interface, EtherType and payload of a packet; EtherType 0 where it is cut before."""
    layer = LAYERS.get(packet.link)
    if not layer:
        raise Fault(f"packet {packet.number} is no Ethernet frame: its link type is {packet.link}")
    return layer(packet)
