"""The layout is that of docs/TABLE.md, and sheets made from the table are those that srpsheet prints."""
import re

import pytest
from conftest import ROOT
from srp import inputs, layout, programs, sheet

EXAMPLES = sorted(path.relative_to(ROOT) for folder in ("examples", "tests/cases") for path in (ROOT / folder).glob("*/*.txt")
                  if path.with_name("sheet").exists())


def rows(title):
    """From and Octets of each row of a table in docs/TABLE.md."""
    section = (ROOT / "docs/TABLE.md").read_text().split(f"# {title}\n")[1].split("\n#")[0]
    return [(line.split("|")[1].strip(), line.split("|")[2].strip()) for line in section.splitlines() if re.match(r"\| \d", line)]


@pytest.mark.parametrize("title, part", [("Domain record", layout.Domain), ("Address record", layout.Address),
                                         ("Cell", layout.Cell), ("Result", layout.Result),
                                         ("Stream record", layout.Stream)])
def test_places_and_lengths(title, part):
    begins = [int(begin) for begin, _ in rows(title)]
    places = {layout.place(part, field) for field in part.__dataclass_fields__}
    if part is layout.Cell:
        inner = layout.place(part, "parameters")
        places |= {inner + layout.place(layout.Parameters, field) for field in layout.Parameters.__dataclass_fields__}
    assert set(begins) == places


def within(outer, field, part):
    """The places of a part's fields in what has it as a field."""
    begin = layout.place(outer, field)
    return {name: begin + layout.place(part, name) for name in part.__dataclass_fields__}


def test_what_a_port_sends():
    assert layout.length(layout.Sender) == 2 * layout.PRIORITIES + 1 + 4 == 21
    assert [layout.place(layout.Sender, field) for field in layout.Sender.__dataclass_fields__] == [0, 8, 16, 17]
    advertise, failed = (within(layout.Sends, field, part) for field, part in (("advertise", layout.AdvertiseSent),
                                                                              ("failed", layout.FailedSent)))
    listener = within(layout.Sends, "listener", layout.ListenerSent)
    priority = advertise["parameters"] + layout.place(layout.Parameters, "priority")
    # a Failed has its Talker's values in one row
    expected = [*advertise.values(), priority, *(place for name, place in failed.items() if name not in ("latency", "code")),
                *listener.values()]
    assert [int(begin) for begin, _ in rows("What a port sends of a stream")] == sorted(expected)
    sizes = [sum(map(int, sizes.split(", "))) for _, sizes in rows("What a port sends of a stream")]
    assert sum(sizes) == layout.length(layout.Sends)


def test_whole_table():
    begins = [int(begin.replace(",", "")) for begin, _ in rows("Layout")]
    fields = ("settings", "clock", "held", "totals", "edges", "senders", "streams")
    assert [int(size.replace(",", "")) for _, size in rows("Layout")] == [
        *(after - before for before, after in zip(begins, begins[1:])), layout.length(layout.Table) - begins[-1]]
    assert begins == [layout.place(layout.Table, field) for field in fields]
    total = re.search(r"table of \*\*([\d,]+) octets", (ROOT / "docs/TABLE.md").read_text())[1]
    assert layout.length(layout.Table) == int(total.replace(",", ""))


def test_settings():
    assert rows("Settings")[:4] == [("0", "8"), ("8", "3"), ("11", "2"), ("13", "1")]
    first = int(rows("Settings")[4][0].split()[0])
    assert layout.place(layout.Table, "port_settings") == layout.length(layout.Settings) == first
    said = f"{layout.length(layout.Settings)} + {layout.length(layout.Port)} x ports"
    assert said in (ROOT / "docs/TABLE.md").read_text()


def test_an_edge():
    records = 2 * layout.PRIORITIES * layout.length(layout.Domain) + layout.ADDRESSES * layout.length(layout.Address)
    assert layout.length(layout.Edge) == records + 3 == 899
    places = [layout.place(layout.Edge, field) for field in layout.Edge.__dataclass_fields__]
    assert places == [0, 64, 128, 129, 130, 131]


def test_a_number_across_octets():
    assert layout.number(bytes.fromhex("2da8"), 3, 7) == 0b0110110


@pytest.mark.parametrize("text", EXAMPLES, ids=str)
def test_sheet_of_an_example(text):
    printed = sheet.plain(inputs.run(inputs.load(str(ROOT / text))))
    assert list(printed) == (ROOT / text).with_name("sheet").read_text().splitlines()


@pytest.mark.parametrize("seed", range(12))
def test_sheet_of_generated_records(seed):
    octets = programs.run([str(ROOT / "tests/reference"), "make", "sheet", str(seed)], b"")
    expected = programs.run([str(ROOT / "tests/program"), "srpsheet"], octets).decode().splitlines()
    assert list(sheet.plain(inputs.run(inputs.of_sheet(f"seed {seed}", octets)))) == expected != []
