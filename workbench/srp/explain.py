"""Why a stream has its column on a port, in words: the step that decides, what it means here, and for code 1 who goes before."""
from dataclasses import dataclass

from srp import answers, layout, programs, records
from srp.faults import Fault
from srp.inputs import Ran
from srp.views import class_of, demand, domains_of, of_class, ports, stream_line
from srp.words import address, cause, rate, reason, stream_id


# The number of a call about a stream that isn't held.
NO_STREAM = 15


def talker_port(table, stream):
    """The lowest port with a Talker of a stream; none where there is none."""
    return next((port for port in ports(table) if stream.cells[port - 1].talker), None)


@dataclass(frozen=True)
class Explained:
    """An input that was run, a stream of it and a port, and what why answers."""
    ran: Ran
    stream: str
    port: int
    answer: answers.Reason

    @property
    def table(self):
        return self.ran.table

    @property
    def names(self):
        return self.ran.input.names

    @property
    def record(self):
        """What the table has of the stream."""
        return next(record for record in self.table.streams if stream_id(record.stream_id) == self.stream)

    @property
    def talker_port(self):
        return talker_port(self.table, self.record)

    @property
    def talker(self):
        """The cell of the Talker that counts."""
        return self.record.cells[(self.talker_port or self.port) - 1]

    @property
    def settings(self):
        return self.table.port_settings[self.port - 1]

    @property
    def name(self):
        """The class of the Talker's priority, or none."""
        return class_of(self.table, self.talker.parameters)

    @property
    def demand(self):
        """Bits per second of the stream on the port; none without a class."""
        return demand(self.talker.parameters, self.settings, self.name) if self.name else None


def ask(given, port, word):
    """What an input's bridge answers of a stream on a port, when all its calls are made."""
    stream = given.names.find(word)
    asked = [records.why(port, int(stream, 16)), records.Record(records.TABLE_OCTETS)]
    *lines, why, table = (answers.read_line(line) for line in programs.calls([*given.records, *asked]))
    ran = Ran(given, lines, layout.read_table(table.octets))
    if not why.accepted:
        raise Fault(f"{given.name}: stream {given.names.beside(stream)} on port {port}: {why.why}{held_in_words(ran, why.number)}")
    return Explained(ran, stream, port, why)


def held_in_words(ran, number):
    """The streams that are held, where another was asked about."""
    if number != NO_STREAM:
        return ""
    held = [ran.input.names.beside(stream_id(stream.stream_id)) for stream in ran.table.streams]
    return f"; held are {', '.join(held)}" if held else "; no stream is held"


def no_talker(one):
    if one.talker_port is None:
        return "no port has a Talker of it"
    return "its Talker is on this port, and it is declared on the others"


def unsupported(one):
    return f"the port doesn't support class {one.name}, which the Talker's priority {one.talker.parameters.priority} is"


def pruned(one):
    return f"Talkers are pruned, and the neighbour has not asked for {address(one.talker.parameters.destination)} by an MMRP frame"


def failed_before(one):
    return (f"bridge {stream_id(one.talker.failed_bridge)} on the way refused it, and its Talker is registered Failed on port"
            f" {one.talker_port}: code {one.talker.code}, {cause(one.talker.code)}")


def changed(one):
    return (f"on port {one.talker_port} the last Talker join had another destination, VLAN, TSpec, priority or rank than the"
            " registered one; a join as that, or the end of the Talker's registration, clears it")


def latency_grown(one):
    return (f"the Talker's latency on port {one.talker_port} is {one.talker.latency} ns, and was {one.talker.first_latency} ns when"
            " it joined; a longer path than at first is not taken")


def own_talker(one):
    return f"this port holds a Talker of the StreamID too, and that on port {one.talker_port} counts"


def no_class(one):
    settings = one.table.settings
    return (f"the Talker's priority is {one.talker.parameters.priority}, and the classes have {settings.priority_a} (A) and"
            f" {settings.priority_b} (B)")


def at_edge(one):
    priority = of_class(one.table.settings, "priority_", one.name)
    heard = ", ".join(f"priority {value.priority}" for value in domains_of(one.table.edges[one.port - 1], one.name))
    return (f"the neighbour is not in class {one.name}'s domain: priority {priority} must be declared and no other, and of the"
            f" class is registered {heard or 'nothing'}")


def address_in_use(one):
    asked = one.talker.parameters
    lower = (stream for stream in one.table.streams if stream.stream_id < int(one.stream, 16))
    same = [stream for stream in lower if any(is_to(cell, asked.destination, asked.vlan) for cell in stream.cells)]
    who = ", ".join(one.names.beside(stream_id(stream.stream_id)) for stream in same)
    return f"{address(asked.destination)}, VLAN {asked.vlan}, is the destination of a lower StreamID too: {who}"


def is_to(cell, destination, vlan):
    """Whether a cell has a Talker to a destination and VLAN."""
    return cell.talker and (cell.parameters.destination, cell.parameters.vlan) == (destination, vlan)


def too_many_inbound(one):
    return (f"the Talker is on port {one.talker_port}, and the limit of inbound ports is {one.table.settings.fan_in_limit}: so many"
            " ports numbered below it bring streams in")


def too_large(one):
    return (f"its frames have up to {one.talker.parameters.max_frame_size} octets, and the port's largest frame is"
            f" {one.settings.largest_frame}")


def no_room(one):
    left = one.demand - one.answer.shortfall
    return (f"it asks for {rate(one.demand)} of class {one.name}; of the limit of {rate(one.answer.limit)} more important streams"
            f" leave {rate(left)}, and {rate(one.answer.shortfall)} are missing")


def admitted(one):
    listens = one.record.cells[one.port - 1].listener
    heard = {0: "nobody asks for it there", 1: "the Listener there asks and is not ready"}.get(listens, "a Listener there is ready")
    return f"it is declared on the port; {heard}"


# What each step means here.
MEANINGS = {"a": no_talker, "b": unsupported, "n": pruned, "c": failed_before, "d": changed, "k": latency_grown, "e": own_talker,
            "f": no_class, "j": at_edge, "l": address_in_use, "m": too_many_inbound, "g": too_large, "h": no_room, "i": admitted}


def before(one):
    """The more important streams that reserve, each with its demand, its rank, and the second that its entry's age is counted from;
    none where the last advance made none."""
    known = {stream_id(stream.stream_id): stream for stream in one.table.streams}
    for place, share in enumerate(one.answer.listed, 1):
        stream = known[share.stream]
        cell, result = stream.cells[talker_port(one.table, stream) - 1], stream.results[one.port - 1]
        yield {"place": place, "stream": share.stream, "name": one.names.of(share.stream), "demand": share.demand,
               "rank": cell.parameters.rank, "since_second": result.second if result.entry else None}


def as_object(one):
    """The answer as JSON has it."""
    line = stream_line(one.record, one.port, one.names)
    return {"input": one.ran.input.name, "stream": one.stream, "name": line.name, "port": one.port, "step": one.answer.step,
            "reason": reason(one.answer.step), "meaning": MEANINGS[one.answer.step](one), "class": one.name, "demand": one.demand,
            "limit": one.answer.limit, "missing": one.answer.shortfall, "before": list(before(one)),
            "decided": {"column": line.column, "code": line.code, "cause": cause(line.code), "listener": line.listener,
                        "entry": line.entry}}


def lines_of(one):
    """The answer in words."""
    said = as_object(one)
    decided = said["decided"]
    code = f" {decided['code']} ({decided['cause']})" if decided["code"] else ""
    yield f"stream {one.names.beside(one.stream)} on port {one.port}"
    yield f"the last advance decided: {decided['column']}{code}, entry {decided['entry']}, Listener declared {decided['listener']}"
    yield f"step {one.answer.step} decides by what is registered now: {said['reason']}"
    yield f"  {said['meaning']}"
    for share in said["before"]:
        who, since = f"{share['stream']} {share['name']}".rstrip(), share["since_second"]
        age = "new" if since is None else f"since second {since}"
        yield f"  {share['place']}. {who}: {rate(share['demand'])}, rank {share['rank']}, {age}"
