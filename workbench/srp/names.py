"""The names that a text gives to streams, and StreamIDs as a user writes them."""
import re
from dataclasses import dataclass, field

from srp.faults import Fault
from srp.words import stream_id

# As texts have them: all 16 digits, at most half of them, or all octets with colons between them.
DIGITS = re.compile(r"[0-9a-fA-F]{16}|[0-9a-fA-F]{1,8}|[0-9a-fA-F]{2}(:[0-9a-fA-F]{2}){7}")


@dataclass(frozen=True)
class Names:
    """The name of each stream that has one, by its StreamID."""
    by_stream: dict = field(default_factory=dict)

    def of(self, stream):
        """A stream's name; nothing where it has none."""
        return self.by_stream.get(stream, "")

    def beside(self, stream):
        """A StreamID with its name."""
        return f"{stream} {self.of(stream)}".rstrip()

    def joined(self, others):
        """These names, and those of others."""
        return Names(others.by_stream | self.by_stream)

    def find(self, word):
        """The StreamID that a word is, or names."""
        for stream, name in self.by_stream.items():
            if name == word:
                return stream
        if not DIGITS.fullmatch(word):
            known = f"; names are {', '.join(sorted(self.by_stream.values()))}" if self.by_stream else ""
            raise Fault(f"stream {word}: a name, 16 hexadecimal digits or at most 8 are expected{known}")
        return stream_id(int(word.replace(":", ""), 16))


NONE = Names()


def with_colons(stream):
    """A StreamID that no program takes for a number."""
    return ":".join(stream[at:at + 2] for at in range(0, len(stream), 2))
