"""The identities that can be named next, by what stands in a folder: the net that was named last, items that are ready, and items at work."""

from __future__ import annotations

from yawl.replay import Folder, Live, dotted


class Known(Folder):
    """What stands, in the order in which it was named."""

    def lives(self) -> list[tuple[str, Live]]:
        """All nets with their identities, the one that was named last at the end."""
        found = [(live.named, at, live) for nets in self.cases.values() for at, live in nets.items()]
        return [(dotted(at), live) for _, at, live in sorted(found, key=lambda it: it[:2])]

    @property
    def nets(self) -> list[str]:
        """The identities of nets, the one that was named last at the end."""
        return [at for at, _ in self.lives()]

    @property
    def ready(self) -> dict[str, str]:
        """The task of each item that is ready. Those of the net that was named last come first."""
        return {dotted(at): item.task for _, live in reversed(self.lives()) for at, item in live.items.items() if item.stage == "ready"}

    @property
    def working(self) -> dict[str, str]:
        """The task of each item that somebody has started, the one that was started last at the end."""
        found = [(item.started, at, item) for _, live in self.lives() for at, item in live.items.items() if item.stage == "executing" and item.who]
        return {dotted(at): item.task for _, at, item in sorted(found, key=lambda it: it[0])}
