"""A workbench over the proved stream-reservation bridge. docs/WORKBENCH.md is its page."""
from srp.answers import Answer, Listed, Octets, Reason, Report, Sum, Written
from srp.bridge import Bridge
from srp.faults import Fault, Missing
from srp.history import Moment, StreamAt, moments
from srp.inputs import Input, Ran, load, run
from srp.layout import (Address, AdvertiseSent, Cell, Domain, DomainSent, Edge, FailedSent, ListenerSent, Parameters, Port, Result,
                        Sender, Sends, Settings, Stream, Table, Totals)
from srp.names import Names
from srp.refusals import Refusal
from srp.views import AskedFor, DomainValue, Load, Share, addresses, loads

__all__ = ["Address", "AdvertiseSent", "Answer", "AskedFor", "Bridge", "Cell", "Domain", "DomainSent", "DomainValue", "Edge",
           "FailedSent", "Fault", "Input", "Listed", "ListenerSent", "Load", "Missing", "Moment", "Names", "Octets", "Parameters",
           "Port", "Ran", "Reason", "Refusal", "Report", "Result", "Sender", "Sends", "Settings", "Share", "Stream", "StreamAt",
           "Sum", "Table", "Totals", "Written", "addresses", "load", "loads", "moments", "run"]
