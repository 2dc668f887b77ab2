"""The search for an order of all calls of a history that is legal, each caller's own calls in its order."""
import bisect
import typing

from suite.history.board import Boards
from suite.history.calls import History

BITS = 14  # of the position of a caller; a history has at most 16,384 calls
MOST_STATES = 4_000_000


class Verdict(typing.NamedTuple):
    """Whether there is a legal order; None where the search was given up. `order`: the callers of its calls, one after
    the other, or those of the most calls that were found to be legal one after the other. `board`: where these lead.
    `reached`: how many calls of each caller are in some legal order of first calls of all."""
    is_legal: bool | None
    order: list[int]
    board: int
    reached: list[int]
    states: int


class Node(typing.NamedTuple):
    """How many calls were made, the state that they lead to, and the caller whose call was chosen last."""
    made: int
    state: int
    caller: int


class Search:
    """Depth first, those first that lead farthest. A state is the board and the positions of all callers. It is looked
    at once: a state that was left has failed. A call that leaves the board is made as soon as it may be: that narrows
    nothing, so each order that has it later has one that has it now.

    With rounds, which are positions of all callers, only orders are looked for in which all calls of a round come before
    those of the next. There are far fewer of these, and each of them is an order."""

    def __init__(self, history: History, boards: Boards, most: int = MOST_STATES,
                 rounds: typing.Sequence[typing.Sequence[int]] = ()) -> None:
        end = len(history.table)  # no board answers it
        self.callers = [[*calls, end] for calls in history.callers]
        self.ends = [[*found, len(calls)] for found, calls in zip(zip(*rounds), self.callers)] if rounds else [
            [len(calls)] for calls in self.callers]
        self.boards, self.most, self.total = boards, most, sum(map(len, history.callers))
        self.seen: set[int] = set()
        self.reached = [0] * len(self.callers)

    def packed(self, board: int, positions: list[int]) -> int:
        state = board
        for position in positions:
            state = state << BITS + 1 | position
        return state

    def unpacked(self, state: int) -> tuple[int, list[int]]:
        positions = []
        for _ in self.callers:
            positions.append(state & (1 << BITS + 1) - 1)
            state >>= BITS + 1
        return state, positions[::-1]

    def limits(self, positions: list[int]) -> list[int]:
        """How far each caller may go until all have come to the end of their round."""
        number = min(bisect.bisect_right(ends, at) for ends, at in zip(self.ends, positions))
        return [ends[min(number, len(ends) - 1)] for ends in self.ends]

    def settled(self, board: int, positions: list[int]) -> list[int]:
        """Makes the calls that leave the board. The callers whose calls those are."""
        made, count = list[int](), -1
        while count != len(made):
            count = len(made)
            for caller, limit in enumerate(self.limits(positions)):
                made += self.settled_of(board, positions, caller, limit)
        return made

    def settled_of(self, board: int, positions: list[int], caller: int, limit: int) -> list[int]:
        """The same for the calls of one caller before a position."""
        begin = at = positions[caller]
        while at < limit and self.boards.after(board, self.callers[caller][at]) & 1:
            at += 1
        positions[caller] = at
        self.reached[caller] = max(self.reached[caller], at)
        return [caller] * (at - begin)

    def next_nodes(self, state: int) -> list[Node]:
        """Where a call leads that changes the board, the farthest last."""
        board, positions = self.unpacked(state)
        found, limits = [], self.limits(positions)
        for caller, calls in enumerate(self.callers):
            after = self.boards.after(board, calls[positions[caller]])
            if after >= 0 and positions[caller] < limits[caller]:
                later = [*positions]
                later[caller] += 1
                self.settled(after >> 1, later)
                packed = self.packed(after >> 1, later)
                if packed not in self.seen:
                    self.seen.add(packed)
                    found.append(Node(sum(later), packed, caller))
        return sorted(found)

    def run(self) -> Verdict:
        positions = [0] * len(self.callers)
        self.settled(0, positions)
        path = [Node(sum(positions), self.packed(0, positions), -1)]
        left, farthest = [self.next_nodes(path[-1].state)], path[:]
        while path:
            if path[-1].made == self.total or len(self.seen) > self.most:
                break
            if left[-1]:
                path.append(left[-1].pop())
                left.append(self.next_nodes(path[-1].state))
                continue
            if path[-1].made > farthest[-1].made:
                farthest = path[:]
            path.pop()
            left.pop()
        is_legal = False if not path else True if path[-1].made == self.total else None
        farthest = path if path and path[-1].made > farthest[-1].made else farthest
        board, _ = self.unpacked(farthest[-1].state)
        return Verdict(is_legal, self.order_of(farthest), board, self.reached, len(self.seen))

    def order_of(self, path: list[Node]) -> list[int]:
        """The callers of the calls on a path, one after the other."""
        board, positions = 0, [0] * len(self.callers)
        order = self.settled(board, positions)
        for node in path[1:]:
            order.append(node.caller)
            board = self.boards.after(board, self.callers[node.caller][positions[node.caller]]) >> 1
            positions[node.caller] += 1
            order += self.settled(board, positions)
        return order


def decide(history: History, modules: dict[str, bytes] | None = None, most: int = MOST_STATES,
           rounds: typing.Sequence[typing.Sequence[int]] = ()) -> tuple[Verdict, Boards]:
    """The verdict on a history, and the boards that it comes to. If rounds are given, an order is looked for in which one
    comes after the other; if there is none, the calls of all rounds may be in any order."""
    boards = Boards(history, modules)
    verdict = Search(history, boards, most, rounds).run()
    return (verdict if verdict.is_legal or not rounds else Search(history, boards, most).run()), boards
