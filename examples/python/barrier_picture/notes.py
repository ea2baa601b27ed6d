"""What a sheet says of itself: nothing is left out without a word."""
from __future__ import annotations

from typing import Dict, List, Tuple

from .svg import text_width

SIZE = 10.0

UNFLARED = ("Drawn along M, since another hazard needs straight barrier where the approach that begins "
            "them bends away: {}. Plan such a road without a flare.")
SEVERAL = ("One flare for several hazards: {}. Look at these before they are built; planned without a "
           "flare, barrier along M shields all of its hazards.")


class Notes:
    """Sentences with what they are said of, and counts of what had no room."""

    def __init__(self) -> None:
        self.first: List[str] = []  # whole sentences, which stand before the others
        self.said: Dict[str, List[str]] = {}
        self.left_out: Dict[Tuple[str, str], int] = {}

    def say(self, sentence: str, what: str) -> None:
        """Says a sentence, one of those above, of one thing more."""
        self.said.setdefault(sentence, []).append(what)

    def leave_out(self, one: str, many: str, count: int) -> None:
        """Counts what had no room; its name for one and for many."""
        if count > 0:
            self.left_out[one, many] = self.left_out.get((one, many), 0) + count

    def sentences(self) -> List[str]:
        found = self.first + [sentence.format(", ".join(what)) for sentence, what in self.said.items()]
        if self.left_out:
            counts = ", ".join(f"{count} {one if count == 1 else many}"
                               for (one, many), count in self.left_out.items())
            found.append(
                f"Left out of the drawing for want of room, and found in the tables: {counts}.")
        return found

    def rows(self, width: float) -> List[str]:
        """The notes in rows of a width; what is continued is set in."""
        found: List[str] = []
        for sentence in self.sentences():
            row = ""
            for word in sentence.split(" "):
                longer = f"{row} {word}" if row else word
                if text_width(longer, SIZE) > width:
                    found.append(row)
                    longer = f"    {word}"
                row = longer
            found.append(row)
        return found
