"""Sheets as CSV, JSON and a page; the table in words; differences."""
import csv
import io
import json
import re
from html.parser import HTMLParser

from conftest import CHOIR, ROOT
from srp import inputs, page, views

OTHER = "examples/hall-quiet/hall.txt"


def test_several_sheets(srp):
    printed = srp("sheet", CHOIR, OTHER)
    assert printed == f"==> {CHOIR} <==\n{srp('sheet', CHOIR)}==> {OTHER} <==\n{srp('sheet', OTHER)}"


def test_csv(srp):
    rows = list(csv.DictReader(io.StringIO(srp("sheet", "--csv", CHOIR, OTHER))))
    assert {row["input"] for row in rows} == {CHOIR, OTHER}
    ports = [row for row in rows if row["input"] == CHOIR and row["line"] == "port"]
    assert [(row["port"], row["total_a"], row["limit_a"]) for row in ports][3] == ("4", "68352000", "75000000")
    [refused] = [row for row in rows if (row["stream"], row["port"], row["input"]) == ("02:00:00:00:00:01:00:04", "4", CHOIR)]
    assert (refused["column"], refused["code"], refused["cause"]) == ("failed", "1", "insufficient bandwidth")


def test_csv_is_read_by_pandas(srp, written):
    """StreamIDs stay what they are, those of digits and an e among them too; numbers become whole ones."""
    import pandas

    text = written("digits.txt", "stream lead 0200000000010001\nbridge 8000000000000007\nports 2\non 1 talker 0200000000010001\n"
                   "on 1 talker 02000000000100e1 to 91e0f0000002\ntime 100\n")
    rows = pandas.read_csv(io.StringIO(srp("sheet", "--csv", text)))
    streams = rows[rows.line == "stream"].convert_dtypes()
    assert sorted(set(streams.stream)) == ["02:00:00:00:00:01:00:01", "02:00:00:00:00:01:00:e1"]
    assert list(streams.code) == [0, 8, 0, 8] and set(streams.name.dropna()) == {"lead"}
    assert list(streams[streams.code == 8].cause) == ["egress port is not AVB capable"] * 2


def test_csv_of_refused_frames(srp):
    rows = list(csv.DictReader(io.StringIO(srp("sheet", "--csv", "examples/refused-frames/numbers.txt", status=1))))
    numbers = [f"refused {row['number']}" for row in rows if row["line"] == "refused"]
    sheet = (ROOT / "examples/refused-frames/sheet").read_text().splitlines()
    assert numbers == [line for line in sheet if line.startswith("refused")] != []
    assert ("stop" in sheet) == any(row["line"] == "stop" for row in rows)


def test_json(srp):
    [sheet] = json.loads(srp("sheet", "--json", CHOIR))
    lines = [f"{line['stream']} {line['port']} {line['column']} {line['code']} {line['listener']} {line['entry']}"
             for line in sheet["streams"]]
    assert lines == srp("sheet", CHOIR).splitlines()[4:]
    assert sheet["refused"] == [] and not sheet["stopped"] and sheet["ports"][3]["total_a"] == 68352000


# Elements that have nothing in them.
EMPTY = ("meta", "rect", "br", "input", "path", "line")


class Page(HTMLParser):
    """The words of a page, and what it would fetch."""

    def __init__(self, page):
        super().__init__()
        self.words, self.fetched, self.places, self.open = [], [], [], []
        self.feed(page)

    def handle_starttag(self, tag, attributes):
        self.fetched += [value for name, value in attributes if name in ("src", "href", "xlink:href")]
        self.places += [value for name, value in attributes if name == "id"]
        if tag not in EMPTY:
            self.open.append(tag)

    def handle_endtag(self, tag):
        if tag not in EMPTY:
            assert self.open.pop() == tag

    def handle_data(self, data):
        self.words += data.split()


def test_page(srp):
    source = srp("sheet", "--html", CHOIR)
    page = Page(source)
    text = " ".join(page.words)
    assert all(word.startswith("#") for word in page.fetched) and page.open == []
    assert "url(" not in source and "http" not in source
    assert "68.352 Mbit/s of 75 Mbit/s, 91 %" in text and "code 1: insufficient bandwidth" in text
    holders = re.findall(r"17\.088 Mbit/s (\w{16}) (no room)?", text)
    order = ["9", "1", "2", "3", "4", "5", "0"]
    assert holders == [(f"020000000001000{digit}", "no room" * (digit in "450")) for digit in order]
    assert "do not add up" not in text


def test_page_of_several_inputs(srp):
    broken = "examples/refused-settings/cut.txt", "examples/refused-frames/numbers.txt"
    text = " ".join(Page(srp("sheet", "--html", OTHER, *broken, status=1)).words)
    assert "The reading stopped early: the settings are refused: the settings have 8 octets" in text and "Refused calls: " in text


def test_shares_add_up_on_generated_sheets():
    """Shares that pages show are those of the table's totals, in both classes and on ports that send twice."""
    from srp import inputs, programs, views

    loads = []
    for seed in range(25):
        octets = programs.run([str(ROOT / "tests/reference"), "make", "sheet", str(seed)], b"")
        loads += views.loads(inputs.run(inputs.of_sheet(f"seed {seed}", octets)).table)
    assert all(load.adds_up for load in loads)
    assert {load.name for load in loads if load.holders} == {"A", "B"}


def test_table(srp, tmp_path):
    text = tmp_path / "leaving.txt"
    text.write_text("bridge 8000000000000007 vlan 70\nports 3\non 2 domain 5 2 8 values 2\n"
                    "on 1 talker 0200000000010001\non 2 listener 0200000000010001 ready\ntime 250\n"
                    "on 1 talker 0200000000010001 size 300\non 2 listener 0200000000010001 ready leave\n"
                    "on 3 listener 0200000000010002 asking\non 2 domain 5 2 8 leave\n")
    printed = srp("table", text)
    for words in ("clock 2.50 s, leave time 0.60 s", "2 streams held", "port 1: Talker Advertise to 91:e0:f0:00:00:01 VLAN 2",
                  "changed", "port 2: Listener Ready, leaving since 2.50 s, gone from 3.10 s on", "port 3: Listener Asking Failed",
                  "second 2 (0 s)", "forward", "no part in an advance yet", "Domain VLAN 70",
                  "failed 8: egress port is not AVB capable"):
        assert words in printed
    domain = [line.strip() for line in printed.split("\ndomain\n")[1].split("\n\n")[0].splitlines()]
    assert domain == ["port 1: at the edge of class A's domain", "port 1: at the edge of class B's domain",
                      "port 2: Domain of class A, priority 3, VLAN 8",
                      "port 2: Domain of class B, priority 2, VLAN 8, leaving since 2.50 s, gone from 3.10 s on",
                      "port 3: at the edge of class A's domain", "port 3: at the edge of class B's domain"]
    assert "no bridge was started" in srp("table", "examples/refused-settings/cut.txt", status=1)


def test_table_without_a_domain(srp, tmp_path):
    text = tmp_path / "unheard.txt"
    text.write_text("bridge 8000000000000007\nports 2 classes none\ntime 100\n")
    assert "nothing is registered, and no port is at an edge" in srp("table", text)


def test_table_of_addresses(srp, tmp_path):
    text = tmp_path / "asked.txt"
    text.write_text("bridge 8000000000000007 pruning\nports 2\nstart\nmmrp 2 mac 91e0f0000000 values 2\nmmrp 1 mac 000000000000\n"
                    "time 100\nmmrp 2 mac 91e0f0000001 leave\n")
    printed = srp("table", text)
    asked = [line.strip() for line in printed.split("\naddresses asked for, pruning on\n")[1].split("\n\n")[0].splitlines()]
    assert asked == ["port 1: 00:00:00:00:00:00", "port 2: 91:e0:f0:00:00:00",
                     "port 2: 91:e0:f0:00:00:01, leaving since 1.00 s, gone from 1.60 s on"]
    assert "addresses asked for, pruning off\n  none\n" in srp("table", CHOIR)


def test_page_at_the_edge(srp):
    assert "at the edge" not in srp("sheet", "--html", CHOIR)
    text = " ".join(Page(srp("sheet", "--html", "examples/other-priority/not-yet-expired.txt")).words)
    assert text.count("at the edge") == 1
    assert "at the edge of class A's domain; registered of it: priority 3, VLAN 2; priority 5, VLAN 2" in text
    assert "code 8: egress port is not AVB capable" in text


def test_page_with_pruning(srp, tmp_path):
    text = tmp_path / "asked.txt"
    text.write_text("bridge 8000000000000007 pruning\nports 3\nstart\nmmrp 2 mac 91e0f0000000 values 2\nmmrp 3 mac 91e0f0000001\n"
                    "time 100\nmmrp 3 leaveall mac\n")
    words = " ".join(Page(srp("sheet", "--html", text)).words)
    assert "Talkers are pruned" in words and words.count("asked for: ") == 3
    for said in ("Port 1 asked for: nothing Class A", "Port 2 asked for: 91:e0:f0:00:00:00, 91:e0:f0:00:00:01 Class A",
                 "Port 3 asked for: 91:e0:f0:00:00:01 (leaving) Class A"):
        assert said in words
    assert "pruned" not in srp("sheet", "--html", CHOIR) and "asked for: " not in srp("sheet", "--html", CHOIR)


def test_diff(srp, tmp_path):
    other = tmp_path / "other.txt"
    other.write_text((ROOT / CHOIR).read_text().replace("ports 4", "ports 3\nports 1 limits 60000000 0"))
    assert srp("diff", CHOIR, "examples/choir/high-ports-first.txt") == "no difference\n"
    lines = [line.split() for line in srp("diff", CHOIR, other, status=1).splitlines()]
    assert ["port", "4", "limit_a", "75000000", "60000000"] in lines
    assert ["port", "4", "total_a", "68352000", "51264000"] in lines
    assert ["0200000000010003", "port", "4", "column", "advertise", "failed"] in lines
    assert ["0200000000010003", "port", "4", "code", "0", "1", "insufficient", "bandwidth"] in lines
    assert ["0200000000010003", "port", "2", "listener", "ready", "asking"] in lines


def test_diff_of_domains(srp, tmp_path):
    other = tmp_path / "other.txt"
    text = (ROOT / CHOIR).read_text().replace("bridge 8000000000000007", "bridge 8000000000000007 vlan 70")
    other.write_text(text.replace("on 4 domain 5 2 2 values 2\n", "on 4 domain 5 2 2\n"))
    lines = [line.split() for line in srp("diff", CHOIR, other, status=1).splitlines()]
    assert ["bridge", "vlan", "2", "70"] in lines and ["port", "4", "edge_a", "no", "yes"] in lines
    assert not any("edge_b" in line for line in lines)
    assert ["0200000000010009", "port", "4", "code", "0", "8", "egress", "port", "is", "not", "AVB", "capable"] in lines


def test_a_fault_of_a_text_names_its_line(srp, tmp_path):
    text = tmp_path / "wrong.txt"
    text.write_text("bridge 8000000000000007\nports 4\non 1 tolker 0200000000010001\n")
    assert "line 3" in srp("sheet", text, status=2)


def test_what_is_reserved_where_class_b_borrows():
    ran = inputs.run(inputs.load(str(ROOT / "examples/hall-intercom/hall.txt")))
    said = {(load.port, load.name): page.reserved(load) for load in views.loads(ran.table)}
    assert said[2, "A"] == "17.088 Mbit/s of 75 Mbit/s, 23 %"
    assert said[2, "B"] == "25.632 Mbit/s, limit 0 bit/s and a part of class A's"
    assert said[1, "B"] == "limit 0 bit/s"
    assert said[3, "A"] == "not supported"
    assert said[3, "B"] == "17.088 Mbit/s of 17.088 Mbit/s, 100 %"
