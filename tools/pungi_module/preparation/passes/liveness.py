"""Where the locals of a function are dead: each way on writes them before it reads them."""

from __future__ import annotations

from collections.abc import Collection, Sequence

from ..text.subset import Expr, Stmt
from .flow_graph import Event, FlowGraph, Path

#: A dead local is not set where it is written after so many statements at most, or where ways join or the function
#: returns by then.
SOON = 4

WRITES = (Event.WRITTEN, Event.CLEARED)
KILLS = (*WRITES, Event.UNSET, Event.DECLARED)


class Liveness:
    """The live locals at each node of a graph. Sets of locals are numbers with a bit for each."""

    def __init__(self, graph: FlowGraph, names: Sequence[str]) -> None:
        self.nodes = graph.nodes
        self.entry = graph.entry
        self.bits = {name: 1 << at for at, name in enumerate(names)}
        #: For each node the locals that are read, on some way from there, before they are written.
        self.live = [0] * len(self.nodes)
        while self._has_grown():
            pass

    def _has_grown(self) -> bool:
        """Looks at each node once."""
        has_grown = False
        for at, node in enumerate(self.nodes):
            found = 0
            for after in node.next:
                found |= self.live[after]
            if node.event in KILLS:
                found &= ~self.bits[node.name]
            elif node.event == Event.READ:
                found |= self.bits[node.name]
            has_grown = has_grown or found != self.live[at]
            self.live[at] = found
        return has_grown

    def is_dead_after(self, at: int) -> bool:
        """The local to which something happens at a node is dead after it."""
        node = self.nodes[at]
        return not any(self.live[after] & self.bits[node.name] for after in node.next)

    def dead_writers(self) -> list[Expr | Stmt]:
        """The assignments and declarations after which their locals are dead, wherever in the tree they stand."""
        written = [(at, node.writer) for at, node in enumerate(self.nodes) if node.writer is not None]
        used = {id(writer) for at, writer in written if not self.is_dead_after(at)}
        return [writer for _, writer in written if writer is not None and id(writer) not in used]


class DeadLocals(Liveness):
    """Where dead locals are to be set to `NULL` or 0. Locals of inner blocks may be moved to the top."""

    def __init__(self, graph: FlowGraph, names: Sequence[str], inner: Collection[str]) -> None:
        super().__init__(graph, names)
        self.before = [0] * len(self.nodes)
        for node in self.nodes:
            for after in node.next:
                self.before[after] += 1
        written = {node.name for node in self.nodes if node.event in WRITES}
        #: The locals of inner blocks that are dead where these begin.
        unset = [at for at, node in enumerate(self.nodes) if node.event in (Event.UNSET, Event.DECLARED)]
        used = {self.nodes[at].name for at in unset if not self.is_dead_after(at)}
        self.movable = set(inner) & written - used
        #: The locals that are dead where they are declared without a value.
        self.unused_at_first = {self.nodes[at].name for at in unset} - used
        #: A parameter that nothing writes needs no store.
        self.settable = self.set_of(written)
        #: The locals that hold `NULL` or 0 before a node, on each way that comes there; None where no way is known.
        self.clear: list[int | None] = [None] * len(self.nodes)
        self._find_clear()

    def set_of(self, names: Collection[str]) -> int:
        """A set of locals."""
        return sum(self.bits[name] for name in names if name in self.bits)

    def _find_clear(self) -> None:
        self.clear[self.entry] = ~self.live[self.entry]
        waiting = [self.entry]
        while waiting:
            at = waiting.pop()
            after = self._clear_after(at)
            for one in self.nodes[at].next:
                known = self.clear[one]
                found = after if known is None else known & after
                if found != known:
                    self.clear[one] = found
                    waiting.append(one)

    def _clear_after(self, at: int) -> int:
        node, known = self.nodes[at], self.clear[at] or 0
        if node.event == Event.SPOT:
            return known | self.worth(at)
        if node.event == Event.CLEARED or node.event == Event.DECLARED and node.name in self.unused_at_first:
            return known | self.bits[node.name]
        if node.event not in KILLS or node.event not in WRITES and node.name in self.movable:
            return known
        return known & ~self.bits[node.name]

    def worth(self, at: int) -> int:
        """The locals that are dead at a spot, can be set there, and stay so for a while."""
        scope = self.set_of(self.nodes[at].scope | self.movable)
        return scope & self.settable & ~self.live[at] & ~self._ends_soon(at)

    def _ends_soon(self, at: int) -> int:
        """The locals that are written soon after a spot; all where the function returns, or where ways join."""
        found, spots = 0, 0
        while len(self.nodes[at].next) == 1:
            at = self.nodes[at].next[0]
            node = self.nodes[at]
            if self.before[at] > 1:
                return -1
            spots += node.event == Event.SPOT
            if spots == SOON:
                return found
            if node.event in KILLS:
                found |= self.bits[node.name]
        return found if self.nodes[at].next else -1

    def stores(self) -> dict[Path, list[str]]:
        """The locals that are set before the statement at each path."""
        found = {}
        for at, node in enumerate(self.nodes):
            known = self.clear[at]
            if node.event == Event.SPOT and known is not None:
                left = self.worth(at) & ~known
                if left:
                    found[node.path] = [name for name in self.bits if left & self.bits[name]]
        return found
