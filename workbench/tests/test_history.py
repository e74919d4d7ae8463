"""What each accepted advance left: rows, objects, a page with plots, and what changed."""
import csv
import io
import json

from conftest import CHOIR, ROOT
from test_sheet import Page

HALL = "examples/why-refused/hall.txt"


def rows_of(printed):
    return list(csv.DictReader(io.StringIO(printed)))


def test_a_row_for_each_advance_port_and_stream(srp):
    rows = rows_of(srp("history", "--csv", CHOIR))
    assert sorted({(int(row["advance"]), int(row["time"])) for row in rows}) == [(1, 100), (2, 300), (3, 500)]
    # four ports, and on each the streams held by then: five, six and seven
    assert [sum(row["advance"] == advance for row in rows) for advance in "123"] == [4 + 4 * 5, 4 + 4 * 6, 4 + 4 * 7]
    last = [row for row in rows if row["advance"] == "3"]
    sheet = [row for row in rows_of(srp("sheet", "--csv", CHOIR))]
    for mine, its in zip(last, sheet, strict=True):
        assert all(mine[name] == value for name, value in its.items() if name in mine)
    [refused] = [row for row in last if (row["stream"][-5:], row["port"]) == ("00:04", "4")]
    assert (refused["column"], refused["code"], refused["class"], refused["demand"]) == ("failed", "1", "A", "17088000")


def test_filters(srp):
    rows = rows_of(srp("history", "--csv", HALL, "--port", 3, "--stream", "guest", "--stream", "02:00:00:00:00:02:00:00"))
    assert {row["port"] for row in rows} == {"3"}
    assert {row["name"] for row in rows if row["line"] == "stream"} == {"guest", "conductor"}
    assert len({row["advance"] for row in rows if row["line"] == "port"}) == len({row["advance"] for row in rows})
    assert "ports are numbered from 1 to 8" in srp("history", HALL, "--port", 9, status=2)
    assert "a name, 16 hexadecimal digits or at most 8 are expected" in srp("history", HALL, "--stream", "nobody", status=2)


def test_as_json(srp):
    [history] = json.loads(srp("history", "--json", CHOIR, "--port", 4))
    assert history["input"] == CHOIR and [one["time"] for one in history["advances"]] == [100, 300, 500]
    assert [one["ports"][0]["total_a"] for one in history["advances"]] == [68352000] * 3
    assert {line["cause"] for line in history["advances"][2]["streams"]} == {"", "insufficient bandwidth"}


def test_what_changed(srp):
    lines = srp("history", CHOIR, "--port", 4).splitlines()
    assert lines[0] == "1.00 s port 4 class A: 0 bit/s -> 68.352 Mbit/s"
    assert "5.00 s port 4 0200000000010004: advertise, forward -> failed 1 (insufficient bandwidth)" in lines
    both = srp("history", CHOIR, HALL)
    assert both.startswith(f"==> {CHOIR} <==\n1.00 s ") and f"\n==> {HALL} <==\n1.00 s " in both


def test_a_refused_advance_and_another_start(both, written):
    text = written("again.txt", "bridge 7\nports 1\nstart\ntime 5\ntime 4\nreport 1\ntable\nsum\nstart\ntime 3\n")
    status, printed, said = both("history", "--csv", text)
    assert status == 0 and [(row["advance"], row["time"]) for row in rows_of(printed)] == [("1", "5"), ("2", "3")]
    assert said == f"srp: {text}: line 5: refused with 9, the time is below the clock\n"


def test_a_page_with_plots(srp):
    source = srp("history", "--html", CHOIR, HALL)
    page = Page(source)
    text = " ".join(page.words)
    assert page.open == [] and page.fetched == [] and "url(" not in source and "http" not in source
    # the choir's port 4 and the hall's port 3; a part of the plot for each that ever reserves
    assert source.count("<svg class=\"plot\"") == 2 and source.count("<path ") == 5 + 5
    assert "Port 4, class A" in text and "limit 75 Mbit/s (dashed)" in text and "conductor" in text
    assert "5.00 s port 4 0200000000010004 advertise, forward failed 1 (insufficient bandwidth)" in text


def test_a_plot_is_stacked_in_steps():
    from srp import history, inputs, plots

    found = list(history.moments(inputs.load(str(ROOT / CHOIR))))
    [plot] = plots.plots(found)
    share = 150 * 17088000 / 75000000
    top = 150 - 4 * share
    # 0004 stands upon the three below it until 5 s, when 0009 takes its place
    by_stream = {layer.stream[-4:]: layer.path for layer in plot.layers}
    change = 760 * 400 / 425
    begins = f"M0.0,{top:.1f} L{change:.1f},{top:.1f} L{change:.1f},"
    assert by_stream["0004"].startswith(f"{begins}{top + share:.1f} L760.0,{top + share:.1f}")
    assert by_stream["0009"].startswith(f"{begins}{top:.1f} L760.0,{top:.1f}")
    assert (plot.first, plot.last, round(plot.limit)) == ("1.00 s", "5.25 s", 0)


def test_a_capture_and_nothing(srp, tmp_path, written):
    capture = tmp_path / "choir.pcapng"
    srp("capture", CHOIR, "--received", "-o", capture)
    rows = rows_of(srp("history", "--csv", capture, "--settings", CHOIR, "--until", 500))
    assert rows[-1]["time"] == "500" and rows[-1]["column"] == "advertise"
    idle = written("idle.txt", "bridge 7\nports 1\n")
    assert "0 accepted advances" in " ".join(Page(srp("history", "--html", idle)).words) and srp("history", idle) == "\n"


def test_rows_are_read_by_pandas(srp):
    import pandas

    rows = pandas.read_csv(io.StringIO(srp("history", "--csv", CHOIR)))
    reserved = rows[(rows.line == "port") & (rows.port == 4)].set_index("time").total_a
    assert list(reserved) == [68352000] * 3 and list(reserved.index) == [100, 300, 500]
    assert set(rows.stream.dropna().str[-5:]) == {"00:00", "00:01", "00:02", "00:03", "00:04", "00:05", "00:09"}
