"""Names of streams: wherever a StreamID is shown, its name stands beside it."""
import csv
import io
import json

import pytest
from conftest import ROOT

NAMED = "examples/names/by-name.txt"
HALL = "examples/why-refused/hall.txt"
STREAM, NAME = "0200000000010001", "soprano"


@pytest.mark.parametrize("words", [("table", NAMED), ("diff", NAMED, "examples/worked-example/words.txt"),
                                   ("history", NAMED, "--port", 3), ("why", NAMED, 3, NAME), ("why", NAMED, 3, STREAM)])
def test_printed(srp, words):
    assert f"{STREAM} {NAME}" in srp(*words, status=1 if words[0] == "diff" else 0)


def test_in_rows_and_objects(srp):
    for command in ("sheet", "history"):
        rows = list(csv.DictReader(io.StringIO(srp(command, "--csv", NAMED))))
        assert {row["name"] for row in rows if row["stream"] == "02:00:00:00:00:01:00:01"} == {NAME}
    [sheet] = json.loads(srp("sheet", "--json", NAMED))
    assert {line["name"] for line in sheet["streams"] if line["stream"] == STREAM} == {NAME}
    assert json.loads(srp("why", NAMED, 3, NAME, "--json"))["name"] == NAME


def test_on_pages(srp):
    for command in ("sheet", "history"):
        page = srp(command, "--html", HALL)
        assert all(name in page for name in ("conductor", "guest-2"))


def test_in_restarts(srp, written):
    """Where results differ, streams are named; an order as a text gives the names again."""
    from test_restarts import WRONG

    text = written("choir.txt", "stream alto 0200000000010004\n" + (ROOT / "examples/choir/low-ports-first.txt").read_text())
    lines = srp("restarts", 60, text, status=1, environment=WRONG).splitlines()
    differing = [line for line in lines if line.startswith("    ")]
    assert any(line.startswith("    0200000000010004 alto port 4: ") and ", and in the first line " in line for line in differing)
    order = written("order.txt", srp("restarts", 60, text, "--order", 3))
    assert order.read_text().startswith("stream alto 0200000000010004\n") and "0200000000010004 alto" in srp("table", order)
    parts = "".join(srp("restarts", 60, text, "--shard", f"{shard}/2", environment=WRONG) for shard in (1, 2))
    assert srp("restarts", "--merge", "-", given=parts, status=1).splitlines() == lines
    [result] = json.loads(srp("restarts", 5, text, "--json"))["results"]
    assert {one["name"] for one in result["decided"] if one["stream"] == "0200000000010004"} == {"alto"}


def test_a_word_that_is_no_stream(srp):
    for word in ("nobody", "02000000000100", "0200000000010001ff"):
        said = srp("why", NAMED, 3, word, status=2)
        assert f"stream {word}: a name, 16 hexadecimal digits or at most 8 are expected" in said and "soprano" in said
