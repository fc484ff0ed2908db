"""Living: items are played one by one as they are typed, each with its answer before the next is read."""
from typing import Callable, Iterable, Iterator

from people.composing import BadLine, compose_line
from people.explaining import LEAST_ROOM, explain
from people.layout import Fresh
from people.playing import play, stops
from people.reading import Piece, read_run
from people.running import Program
from people.wording import say


class Talk:
    """Between the one who types items and the program; bad lines are told and not played."""

    def __init__(self, program: Program, tell: Callable[[object], None]):
        self.program = program
        self.tell = tell
        self.stops = False

    def answers(self, lines: Iterable[bytes]) -> Iterator[str]:
        """What comes of each item, in words, as soon as it is known."""
        played = play(self.handed(read_run(self.composed(lines))), self.program.lines())
        if played.begins:
            yield f"{'':<{LEAST_ROOM}}  {say(played.fresh)}"
        yield from explain(played)

    def composed(self, lines: Iterable[bytes]) -> Iterator[bytes]:
        """The bytes of the good lines."""
        for number, line in enumerate(lines, 1):
            try:
                item = compose_line(number, line.decode("utf-8"))
            except UnicodeDecodeError:
                self.tell(f"line {number}: no text in UTF-8")
                continue
            if isinstance(item, BadLine):
                self.tell(item)
            else:
                yield item

    def handed(self, pieces: Iterator[Piece]) -> Iterator[Piece]:
        """Each piece, handed to the program before its answer is asked for; behind the last there are no more bytes."""
        for place, piece in enumerate(pieces):
            self.program.hand(piece.data)
            if stops(piece.content) if place else not isinstance(piece.content, Fresh):
                self.stops = True
                self.program.close()
            yield piece
        self.program.close()
