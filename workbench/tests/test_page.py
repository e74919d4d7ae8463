"""The page of a full bridge: 64 streams on 8 ports."""
import re
import shutil

import pytest
from conftest import CHOIR, run
from test_sheet import Page

FULL = "\n".join([
    "stream first 0200000000010000", "bridge 8000000000000007 pruning", "ports 8 limits 300M 40M", "start",
    *(f"on {port} domain 5 2 2 values 2" for port in range(1, 9)),
    "on 1 talker first values 40", "on 2 talker 0200000000020000 to 91e0f0001000 priority 2 values 23",
    "on 3 talker 0200000000030000 priority 6",
    *(f"mmrp {port} mac 91e0f0000000 values {63 - port}" for port in range(3, 9)), "mmrp 2 mac 91e0f0001000 values 2",
    *(f"on {port} listener first ready values {30 + port}" for port in range(4, 9)),
    "on 8 listener 0200000000020000 ready values 20", "time 100", "on 8 listener first ready leave", ""])


@pytest.fixture(scope="module")
def full(tmp_path_factory):
    path = tmp_path_factory.mktemp("full") / "full.txt"
    path.write_text(FULL)
    return path


def test_the_page_of_a_full_bridge(srp, full):
    source = srp("sheet", "--html", full)
    page = Page(source)
    text = " ".join(page.words)
    assert "64 streams held" in text and page.open == []
    assert text.count("<th>class</th>") == 0 and "StreamID class rank asks for port 1" in text
    classes = re.findall(r"</td><td>(A|B|–)</td><td>[01]</td><td>", source)
    assert [classes.count(name) for name in ("A", "B", "–")] == [40, 23, 1]
    # heads stay in sight, and rows are searched
    assert "position: sticky" in source and 'type="search"' in source
    # every link leads to a place of the page: from shares to streams, and from the streams' heads to ports
    assert {word[1:] for word in page.fetched} <= set(page.places)
    assert "input1-port-8" in page.places and f"#input1-{0x0200000000010000:016x}" in page.fetched
    # addresses in a row are folded, a pair of them isn't
    assert "asked for: 91:e0:f0:00:00:00 to 91:e0:f0:00:00:3b, 60 addresses" in text
    assert "asked for: 91:e0:f0:00:10:00, 91:e0:f0:00:10:01 Class" in text
    # long lists are folded
    assert "<details><summary>" in source and re.search(r"<ol start=\"9\">", source)


def test_every_sign_stands_in_the_legend(srp, full):
    from srp import page

    source = srp("sheet", "--html", full)
    legend = " ".join(re.findall(r'<p class="legend">(.*?)</p>', source, re.DOTALL))
    signs = set(re.findall(r'<span class="chip \w+">([^<]+)</span>', source.replace(legend, "")))
    assert signs == {"forwards", "advertised", "refused", "filters", "Talker", "–"}
    for sign in (*signs, *(word for _, word in page.STATES.values()), "✕", "leaving"):
        assert sign in legend


def test_no_room_lists_only_who_asked(srp, full):
    """Towards port 4 forty Talkers go, of which 17 find room; of the others those with a Listener there stand in its list."""
    from srp import inputs, views

    table = inputs.run(inputs.load(str(full))).table
    found = {(load.port, load.name): load for load in views.loads(table)}
    refused = {port: sum(stream.results[port - 1].code == 1 for stream in table.streams) for port in range(1, 9)}
    for port in range(4, 9):
        asked = sum(stream.cells[port - 1].listener > 0 and stream.results[port - 1].code == 1 for stream in table.streams)
        assert len(found[port, "A"].waiting) + len(found[port, "B"].waiting) == asked <= refused[port]
    assert len(found[4, "A"].waiting) == 17 < refused[4] == 23


@pytest.mark.skipif(not shutil.which("chromium"), reason="chromium is not installed")
@pytest.mark.parametrize("width", [1400, 800])
def test_chromium_shows_the_page(srp, full, tmp_path, width):
    """The search leaves one row, and nothing stands past the window but what scrolls in its own place."""
    page = tmp_path / "page.html"
    probe = """<script>
      const field = document.querySelector(".search input");
      field.value = "0200000000010007"; field.dispatchEvent(new Event("input"));
      const rows = [...document.querySelectorAll("tbody tr")].filter(row => !row.hidden).length;
      document.title = `rows ${rows} over ${document.documentElement.scrollWidth - document.documentElement.clientWidth}`;
    </script>"""
    page.write_text(srp("sheet", "--html", full).replace("</body>", f"{probe}</body>"))
    done = run("chromium", "--headless", "--no-sandbox", "--disable-gpu", f"--user-data-dir={tmp_path}/profile",
               f"--window-size={width},900", "--dump-dom", f"file://{page}")
    assert "<title>rows 1 over 0</title>" in done.stdout, done.stdout[:400] + done.stderr[-400:]


def test_a_page_without_streams(srp, written):
    text = " ".join(Page(srp("sheet", "--html", written("idle.txt", "bridge 7\nports 1\n"))).words)
    assert "No stream is held." in text
    assert "0 frames" in text and CHOIR not in text
