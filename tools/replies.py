"""A reply of a call as a report has it, from its words in a trace (docs/FORMATS.md)."""


def spelled(reply):
    """The text of a reply: of a page its pairs and the next key, else its words."""
    if reply[0] != "page":
        return " ".join(reply)
    pairs = [f"{key}={payload}" for key, payload in reply[1]]
    return " ".join(["page", *pairs, *(["end"] if reply[2] is None else ["next", reply[2]])])
