"""The engine's refusals by name."""

REFUSALS = {
    1: "schema malformed",
    3: "area over 8,192 words",
    4: "call malformed",
    10: "area damaged",
    11: "insert on a live row, or change of a vacant one",
    12: "no such level, or begin inside a transaction",
    13: "nine levels open",
    14: "actions too deep",
    15: "journal full",
    16: "NOT NULL",
    17: "not unique",
    18: "RESTRICT",
    19: "kept orphans out of range",
    20: "orphans left",
    21: "commit with orphans",
    22: "orphan list too short",
    23: "broken key",
    24: "window empty or overlapping",
}


def refusal_name(code):
    """The name of a code that is not 0."""
    return REFUSALS.get(code, "unknown refusal")
