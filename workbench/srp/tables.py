"""The table in words: who is registered where, leaving since when, changed, of what age, where the domain ends, which addresses
were asked for, what is settled, and what each port has still to say."""
from srp.needs import need
from srp.refusals import summed_up
from srp.views import addresses, class_of, demand, loads, of_class, ports
from srp.words import (CLASSES, COLUMNS, ENTRIES, LEAVE_ALL_TIME, LISTENERS, address, applicant, cause, counted, edge, rate,
                       seconds, stream_id, word)

TALKERS = ("none", "Advertise", "Failed")
DECLARED = ("none", "Asking Failed", "Ready", "Ready Failed")


def leaving(since, table):
    """Since when a registration leaves, and from when on an advance removes it."""
    return f"leaving since {seconds(since)}, gone from {seconds(since + table.settings.leave_time)} on"


def asked_for(parameters):
    """What a Talker asks for."""
    return (f"to {address(parameters.destination)} VLAN {parameters.vlan}, {parameters.max_interval_frames} x"
            f" {parameters.max_frame_size} octets, priority {parameters.priority}, rank {parameters.rank}")


def talker_words(cell, table):
    """The parts of what is said of a registered Talker."""
    yield f"Talker {word(TALKERS, cell.talker)} {asked_for(cell.parameters)}, latency {cell.latency} ns"
    if cell.latency != cell.first_latency:
        yield f"first {cell.first_latency} ns"
    if cell.talker == COLUMNS.index("failed"):
        yield f"code {cell.code} ({cause(cell.code) or 'none'}) of bridge {stream_id(cell.failed_bridge)}"
    if cell.changed:
        yield "changed"
    if cell.talker_leaving:
        yield leaving(cell.talker_since, table)


def listener_words(cell, table):
    yield f"Listener {word(DECLARED, cell.listener)}"
    if cell.listener_leaving:
        yield leaving(cell.listener_since, table)


def registered(stream, table):
    """A line for each registration of a stream."""
    for port in ports(table):
        cell = stream.cells[port - 1]
        if cell.talker:
            yield f"port {port}: {', '.join(talker_words(cell, table))}"
        if cell.listener:
            yield f"port {port}: {', '.join(listener_words(cell, table))}"


def age(result, table):
    """Since which second there is an entry, and for how long."""
    return f"second {result.second} ({table.clock // 100 - result.second} s)" if result.entry else ""


def settled_row(stream, port, table):
    """What the last advance decided of a stream on a port."""
    result, settings = stream.results[port - 1], table.port_settings[port - 1]
    name = class_of(table, stream.settled)
    talker = word(COLUMNS, result.column)
    if result.code:
        talker += f" {result.code}: {cause(result.code)}, of bridge {stream_id(result.failed_bridge)}"
    return (str(port), talker, f"{result.latency} ns" if result.column else "", word(LISTENERS, result.listener),
            word(ENTRIES, result.entry), age(result, table),
            rate(demand(stream.settled, settings, name)) if name and result.column else "")


def grid(columns, rows, title=None):
    """Rows under the names of their columns."""
    shown = need("rich.table").Table(*columns, box=need("rich.box").SIMPLE, title=title, title_justify="left", pad_edge=False)
    for row in rows:
        shown.add_row(*row)
    return shown


def settled_grid(stream, table):
    """The last advance's decisions on a stream."""
    columns = ("port", "column", "latency out", "Listener declared", "entry", "entry since", "demand")
    return grid(columns, [settled_row(stream, port, table) for port in ports(table)], "settled")


def port_row(load, table):
    """The settings and totals of a class on a port."""
    one = table.port_settings[load.port - 1]
    latency = one.latency_a if load.name == "A" else one.latency_b
    return (str(load.port), load.name, "yes" if load.supported else "no", rate(load.total), rate(load.limit), f"{latency} ns",
            str(one.overhead), str(one.largest_frame), "yes" if one.sends_twice else "no")


def port_grid(table):
    columns = ("port", "class", "supported", "reserved", "limit", "latency", "overhead", "largest frame", "sent twice")
    return grid(columns, [port_row(load, table) for load in loads(table)], "ports")


def domain_words(value, table):
    """The parts of what is said of a registered Domain value."""
    yield f"priority {value.priority}, VLAN {value.vlan}"
    if value.leaving_since is not None:
        yield leaving(value.leaving_since, table)


def domain_lines(table):
    """A line for each Domain registration, and for each class that has its domain's edge at a port."""
    for load in loads(table):
        for value in load.domains:
            yield f"port {load.port}: Domain of class {load.name}, {', '.join(domain_words(value, table))}"
        if load.at_edge:
            yield f"port {load.port}: {edge(load.name)}"


def show_domain(table, console):
    """Prints what is registered of the domain, and where it ends."""
    console.print("domain")
    console.print("\n".join(f"  {line}" for line in domain_lines(table)) or "  nothing is registered, and no port is at an edge")
    console.print()


def address_lines(table):
    """A line for each address that a port's neighbour has asked for."""
    for port, all_asked in addresses(table).items():
        for asked in all_asked:
            since = "" if asked.leaving_since is None else f", {leaving(asked.leaving_since, table)}"
            yield f"port {port}: {address(asked.address)}{since}"


def show_addresses(table, console):
    """Prints the addresses that were asked for, and whether Talkers are pruned by them."""
    console.print(f"addresses asked for, pruning {'on' if table.settings.pruning else 'off'}")
    console.print("\n".join(f"  {line}" for line in address_lines(table)) or "  none")
    console.print()


def leave_all_words(sender):
    """Whether a LeaveAll is due, and since when the next one counts."""
    due = "is due, and goes out with the port's next write" if sender.leave_all else "isn't due"
    return (f"LeaveAll {due}; the next counts since {seconds(sender.leave_all_since)}, due from"
            f" {seconds(sender.leave_all_since + LEAVE_ALL_TIME)} on")


def sender_lines(table):
    """A line for each Domain value that a port declares, and for its LeaveAll."""
    for port in ports(table):
        sender = table.senders[port - 1]
        for name in CLASSES:
            for priority, sent in enumerate(of_class(sender, "domains_", name)):
                if sent.applicant:
                    yield f"port {port}: Domain of class {name}, priority {priority}: {applicant(sent.applicant)}"
        yield f"port {port}: {leave_all_words(sender)}"


def show_senders(table, console):
    """Prints what each port sends by itself."""
    console.print("sent by each port")
    console.print("\n".join(f"  {line}" for line in sender_lines(table)))
    console.print()


def talker_sent(sent):
    """The values that a port has last declared of a Talker."""
    return f"{asked_for(sent.parameters)}, latency out {sent.latency} ns"


def sends_lines(stream, table):
    """A line for each declaration of a stream that a port has sent or has still to send, with the values last declared."""
    for port in ports(table):
        sends = stream.sends[port - 1]
        if sends.advertise.applicant:
            yield f"port {port}: Talker Advertise {applicant(sends.advertise.applicant)} {talker_sent(sends.advertise)}"
        if sends.failed.applicant:
            sent = sends.failed
            failure = f"code {sent.code} ({cause(sent.code) or 'none'}) of bridge {stream_id(sent.failed_bridge)}"
            yield f"port {port}: Talker Failed {applicant(sent.applicant)} {talker_sent(sent)}, {failure}"
        if sends.listener.applicant:
            yield f"port {port}: Listener {word(DECLARED, sends.listener.declared)} {applicant(sends.listener.applicant)}"


def show_sends(stream, table, console):
    """Prints what the ports declare of a stream, if they declare something."""
    lines = list(sends_lines(stream, table))
    if lines:
        console.print("\n".join(["declared", *(f"  {line}" for line in lines), ""]))


def head(table):
    """The bridge as a whole."""
    settings = table.settings
    return (f"bridge {stream_id(settings.bridge_id)}, clock {seconds(table.clock)}, leave time {seconds(settings.leave_time)},"
            f" class A priority {settings.priority_a}, class B priority {settings.priority_b}, Domain VLAN {settings.vlan},"
            f" fan-in limit {settings.fan_in_limit or 'none'}, {table.held} streams held")


def refused_lines(ran):
    """How many frames were handed over, and which calls were refused."""
    frames = sum(record.is_frame for record in ran.input.records)
    refused = sum(one.is_frame for one in ran.refusals)
    yield f"{counted(frames, 'frame')} handed over, {refused or 'none'} refused"
    yield from (f"  {line}" for line in summed_up(ran.refusals))


def show_stream(stream, table, console, names):
    """Prints who is registered, what the last advance decided, if it had the stream, and what ports declare of it."""
    is_settled = any(result.column or result.entry or result.listener for result in stream.results)
    console.print(f"stream {names.beside(stream_id(stream.stream_id))},"
                  f" class {is_settled and class_of(table, stream.settled) or 'none'}")
    lines = [f"  {line}" for line in registered(stream, table)]
    console.print("\n".join(lines) or "  nothing is registered: it is held until its Lv is sent\n")
    if lines:
        console.print(settled_grid(stream, table) if is_settled else "  no part in an advance yet\n")
    show_sends(stream, table, console)


def show(ran, console):
    """Prints the table of an input."""
    if ran.stopped:
        console.print(f"{ran.input.name}: the reading stopped early: {ran.reason}")
    if not ran.has_table:
        console.print(f"{ran.input.name}: no bridge was started")
        return
    console.print("\n".join(refused_lines(ran)))
    console.print(head(ran.table))
    console.print(port_grid(ran.table))
    show_domain(ran.table, console)
    show_addresses(ran.table, console)
    show_senders(ran.table, console)
    for stream in ran.table.streams:
        show_stream(stream, ran.table, console, ran.input.names)
