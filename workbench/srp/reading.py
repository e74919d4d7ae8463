"""How captures are read: which source is which port, what is left out, and what is taken for settings."""
import re
from dataclasses import dataclass, field

from srp import layout
from srp.faults import Fault

ADDRESS = re.compile(r"[0-9a-f]{2}(:[0-9a-f]{2}){5}")

# Where no ports are given, port p is the source address 02:00:00:00:00:0p: that of the captures written here.
OWN_PORTS = {f"02:00:00:00:00:{port:02x}": port for port in range(16)}


@dataclass(frozen=True)
class Reading:
    """How an input is read: of a capture the port of each source address or interface, the settings, which are those of any input
    where they are given, the time of the last advance, whether neighbours in the domain are supposed, and the sources that are
    left out."""
    ports: dict = field(default_factory=lambda: OWN_PORTS)
    settings: bytes | None = None
    until: int | None = None
    domain: bool = False
    ignored: frozenset = frozenset()

    def port_of(self, source, interface):
        """The port of a frame; none where its source is no port."""
        return self.ports.get(source, self.ports.get(interface))

    def leaves_out(self, source, interface):
        return source in self.ignored or interface in self.ignored

    @property
    def of_captures(self):
        """The options that are given and mean something for captures alone."""
        given = {"--port": self.ports is not OWN_PORTS, "--until": self.until is not None, "--domain": self.domain,
                 "--ignore": bool(self.ignored)}
        return [option for option, is_given in given.items() if is_given]


def source_of(word):
    """A source as packets are compared with it: an address in small letters with colons, or an interface."""
    address = word.lower().replace("-", ":")
    return address if ADDRESS.fullmatch(address) else word


def ports_of(words):
    """The ports of words such as 00:1b:21:00:00:01=1 or eth0=2."""
    ports = {}
    for word in words:
        source, mark, port = word.rpartition("=")
        if not mark or not source or not port.isdigit() or not 1 <= int(port) <= layout.PORTS:
            raise Fault(f"--port {word}: a source address or interface, = and a port of 1 to {layout.PORTS} are expected")
        if source_of(source) in ports:
            raise Fault(f"--port {word}: {source} is port {ports[source_of(source)]} already")
        ports[source_of(source)] = int(port)
    return ports or OWN_PORTS
