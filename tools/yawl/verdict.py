"""Whether the server accepts a specification, and what to say where it doesn't."""

from __future__ import annotations

from . import check, server


def refusal(name: str, data: bytes) -> str | None:
    """What is wrong with a specification, with its place; None where the server accepts it. Raises server.Lost and OSError."""
    _, said = server.check(data)
    if said["ok"]:
        return None
    source, finding = check.decoded(name, data)
    if said["rule"] != "SpecText" or finding is None:
        finding = check.explain(source, said["rule"], said["at"])
    return f"{finding.shown(source)}\n({said['rule']}{' at ' + said['at'] if said['at'] else ''})"
