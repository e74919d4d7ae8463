"""A bridge as an object: the calls over one process of srpcalls, which answers each record at once."""
import re
import subprocess
from contextlib import contextmanager

from srp import answers, arguments, layout, programs, records, texts
from srp.faults import Fault
from srp.names import NONE

# Records that are handed over before their answers are read: few enough for the pipes between the two processes to hold them.
CHUNK_RECORDS, CHUNK_OCTETS = 256, 1 << 15


def chunks(all_records):
    """Records in parts that pipes hold."""
    part, size = [], 0
    for record in all_records:
        if part and (len(part) == CHUNK_RECORDS or size + len(record.octets) > CHUNK_OCTETS):
            yield part
            part, size = [], 0
        part.append(record)
        size += len(record.octets)
    if part:
        yield part


class Bridge:
    """A bridge that was just started. Settings are the lines of a text (`bridge ..`, `ports ..`), or octets. Names that its texts
    give to streams stay.

    Its process ends with `close`, or at the end of a `with`."""

    def __init__(self, settings=None):
        self.names, self._name_lines, self._rule = NONE, [], ""
        self._process = programs.started(programs.PROVED_CALLS, stdin=subprocess.PIPE, stdout=subprocess.PIPE)
        try:
            answer = None if settings is None else self.start(settings)
            if answer and not answer.accepted:
                raise Fault(f"the settings are refused with {answer.number}: {self._rule or answer.why}")
        except BaseException:
            self.close()
            raise

    def __enter__(self):
        return self

    def __exit__(self, *_):
        self.close()

    def close(self):
        try:
            self._process.stdin.close()
        except BrokenPipeError:
            pass
        self._process.stdout.close()
        self._process.wait()

    def calls(self, all_records):
        """Makes the calls of records, and gives the answers of those that have one."""
        for part in chunks(all_records):
            try:
                self._process.stdin.write(b"".join(record.octets for record in part))
                self._process.stdin.flush()
                lines = [self._process.stdout.readline() for record in part if record.is_answered]
            except (BrokenPipeError, ValueError):
                lines = [b""]
            if not all(lines):
                raise Fault("the bridge's process has ended")
            yield from (answers.read_line(line.decode()) for line in lines)

    def call(self, record):
        """Makes the call of a record; those that store or lend have no answer."""
        return next(self.calls([record]), None)

    def start(self, settings):
        """Starts the bridge anew."""
        if isinstance(settings, str):
            settings = self._records(settings, "sheet")
        octets = arguments.octets("settings", settings)
        answer = self.call(records.start(octets))
        self._rule = "" if answer.accepted else programs.broken_rule(octets)
        return answer

    def receive(self, port, pdu):
        """Hands over a PDU that arrived on a port."""
        return self.call(records.receive(port, pdu))

    def receive_mmrp(self, port, pdu):
        """Hands over an MMRP frame that arrived on a port."""
        return self.call(records.receive_mmrp(port, pdu))

    def advance(self, time):
        """Sets the clock, in hundredths of a second, and decides."""
        return self.call(records.advance(time))

    def write(self, port, place=0, buffer=1500):
        """The PDU of what a port has to say, from a place of its declarations on. It counts as sent, which the bridge remembers."""
        return self.call(records.write(port, place, buffer))

    def said(self, port):
        """The PDUs of a port's pass: all that it has to say, from place 0 by the next places to one of 00 00 00, which is left
        out. They count as sent."""
        pdus, answer = [], self.write(port)
        while answer.has_said:
            pdus.append(answer.pdu)
            answer = self.write(port, answer.next)
        return pdus

    @contextmanager
    def kept(self):
        """Within it calls are made as ever, and at its end the table is put back, to the octet."""
        before = self._octets()
        try:
            yield
        finally:
            self.call(records.lend(len(before)))
            pairs = enumerate(zip(before, self._octets()))
            list(self.calls(records.store(place, octet) for place, (octet, now) in pairs if octet != now))

    def report(self, port, place=0):
        """What a port has reserved, and the stream at a place among those held."""
        return self.call(records.report(port, place))

    def why(self, port, stream, buffer=1008):
        """Why a stream, by its name, its StreamID in hex or as a number, has its column on a port."""
        if isinstance(stream, str):
            stream = int(self.names.find(stream), 16)
        return self.call(records.why(port, stream, buffer))

    def _records(self, text, kind, *options):
        """The records of a text, with the names that texts before it gave. A fault names the line of this text."""
        before = len(self._name_lines)
        try:
            octets = programs.records_of_text("\n".join([*self._name_lines, text]).encode(), kind, *options)
        except Fault as fault:
            raise Fault(re.sub(r"\bline (\d+)", lambda found: f"line {int(found[1]) - before}", str(fault))) from None
        lines = [line for line in text.splitlines() if first_word(line) in ("stream", "address")]
        if lines:
            self._name_lines += lines
            self.names, _ = programs.index_of_text("\n".join(self._name_lines).encode(), "calls")
        return octets

    def feed(self, text):
        """Makes the calls of a text's lines, and gives their answers."""
        for number, line in enumerate(arguments.text("text", text).splitlines(), 1):
            if first_word(line) in NOT_FED:
                raise Fault(f"line {number}: {first_word(line)}: {NOT_FED[first_word(line)]}")
        # quiet: these lines are a part of what is called, and an advance may come by itself
        calls, _ = records.split(self._records(text, "calls", "quiet"), records.is_of_calls)
        return list(self.calls(calls))

    def hear_domain(self, *ports):
        """Hands over what a neighbour in the bridge's domain declares on these ports, or on all where none is named. Towards a port
        that has heard no such neighbour no stream is admitted (code 8)."""
        settings = self.table().settings
        named = [arguments.number("port", port, 0xF) for port in ports]
        lines = [texts.domain_line(port, settings) for port in named] or texts.domain_lines(settings)
        return self.feed("\n".join(lines))

    def reports(self, port):
        """The reports of all streams held."""
        return list(self.calls(records.report(port, place) for place in range(self.report(port).count)))

    def declarations(self, port):
        """The PDUs that a port's next pass would write; none where it has nothing to say. A look: the bridge stays as it is."""
        with self.kept():
            return self.said(port)

    def _octets(self):
        """The table's octets that calls are lent."""
        return self.call(records.Record(records.TABLE_OCTETS)).octets

    def table(self):
        """The whole table, by docs/TABLE.md."""
        return layout.read_table(self._octets())

    def sum(self):
        """The Adler-32 of the table's octets, in hex."""
        return self.call(records.Record(records.TABLE_SUM)).sum


# Lines that feed doesn't take, and why.
SETTINGS_LINE = "settings are handed to start"
NOT_FED = {"bridge": SETTINGS_LINE, "ports": SETTINGS_LINE,
           "raw": "octets that may be no whole record would leave no answer to wait for"}


def first_word(line):
    """The first word of a line of a text, behind which a comment may stand."""
    words = line.partition("#")[0].split()
    return words[0] if words else ""
