"""The places that include/srp.h reads are those of the layout."""
import re

from conftest import ROOT
from srp import layout
from srp.words import APPLICANTS, STILL_TO_SAY

HEADER = (ROOT / "include/srp.h").read_text()
PLACES = {name: int(number) for name, number in re.findall(r"^#define SRP_AT_(\w+) (\d+)$", HEADER, re.MULTILINE)}


def parameters(field):
    return layout.place(layout.Stream, "settled") + layout.place(layout.Parameters, field)


def test_every_place_is_the_layouts():
    assert PLACES == {
        "CLOCK": layout.place(layout.Table, "clock"), "HELD": layout.place(layout.Table, "held"),
        "TOTALS": layout.place(layout.Table, "totals"), "TOTALS_NEXT": layout.length(layout.Totals),
        "TOTALS_B": layout.place(layout.Totals, "b"),
        "STREAMS": layout.place(layout.Table, "streams"), "STREAMS_NEXT": layout.length(layout.Stream),
        "STREAM_ID": layout.place(layout.Stream, "stream_id"), "DESTINATION": parameters("destination"),
        "VLAN": parameters("vlan"), "PRIORITY": parameters("priority"),
        "RESULTS": layout.place(layout.Stream, "results"), "RESULTS_NEXT": layout.length(layout.Result),
        "COLUMN": layout.place(layout.Result, "column"), "ENTRY": layout.place(layout.Result, "entry"),
        "SENDERS": layout.place(layout.Table, "senders"), "SENDERS_NEXT": layout.length(layout.Sender),
        "LEAVE_ALL": layout.place(layout.Sender, "leave_all"), "LEAVE_ALL_SINCE": layout.place(layout.Sender, "leave_all_since"),
        "SENDS": layout.place(layout.Stream, "sends"), "SENDS_NEXT": layout.length(layout.Sends),
        "SENT_ADVERTISE": layout.place(layout.Sends, "advertise"), "SENT_FAILED": layout.place(layout.Sends, "failed"),
        "SENT_LISTENER": layout.place(layout.Sends, "listener"),
    }
    assert f"#define SRP_TABLE {layout.length(layout.Table)}\n" in HEADER


def test_applicants_have_their_words():
    numbers = {name: int(number) for name, number in re.findall(r"SRP_APPLICANT_(\w+) = (\d+)", HEADER)}
    assert numbers == {name.upper(): number for number, name in enumerate(APPLICANTS)}
    assert set(STILL_TO_SAY) == set(APPLICANTS) - {"none"}


def test_widths_are_the_layouts():
    """Numbers are read with the octets that their fields have."""
    for reader, octets in (("SRP_AT_CLOCK, ", layout.length_of(layout.Table, "clock")),
                           ("SRP_AT_STREAM_ID, ", layout.length_of(layout.Stream, "stream_id")),
                           ("SRP_AT_DESTINATION, ", layout.length_of(layout.Parameters, "destination")),
                           ("SRP_AT_VLAN, ", layout.length_of(layout.Parameters, "vlan")),
                           ("SRP_AT_TOTALS_NEXT * (port - 1), ", layout.length_of(layout.Totals, "a")),
                           ("SRP_AT_TOTALS_B, ", layout.length_of(layout.Totals, "b")),
                           ("SRP_AT_LEAVE_ALL_SINCE, ", layout.length_of(layout.Sender, "leave_all_since"))):
        assert re.findall(re.escape(reader) + r"(\d+)", HEADER) == [str(octets)], reader


def test_the_settings_have_every_field():
    """The builder's numbers are those of the layout, in its order, but for bits that are zero."""
    for struct, part in (("srp_settings", layout.Settings), ("srp_port_settings", layout.Port)):
        body = re.search(rf"struct {struct} {{\n(.*?)\n}};", HEADER, re.DOTALL)[1]
        names = re.findall(r"^    uint\d+_t (\w+);", body, re.MULTILINE)
        assert names == [name for name in part.__dataclass_fields__ if name != "zero"]
