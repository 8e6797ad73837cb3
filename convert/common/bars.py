"""How far a step is, in words and as a bar."""

from dataclasses import dataclass

_LEAST_SECONDS = 1.0  # before what is left is estimated
_MOST_BAR = 30
_LEAST_BAR = 5
_GAP = "  "


@dataclass(frozen=True)
class Share:
    """What is done of a step, as far as that is known, and for how long it has been done."""

    count: int
    total: int | None
    seconds: float

    @property
    def part(self) -> float | None:
        """What is done of all, from 0 to 1."""
        return min(1.0, self.count / self.total) if self.total else None

    def __str__(self) -> str:
        part = self.part
        if part is None:
            return ", ".join([*[f"{self.count:,}"] * bool(self.count), time_text(self.seconds)])
        if not part or self.seconds < _LEAST_SECONDS:
            return f"{int(100 * part)} %"
        return f"{int(100 * part)} %, {time_text(self.seconds / part - self.seconds)} left"


def time_text(seconds: float) -> str:
    """A time in minutes and seconds, and hours if there are any."""
    minutes, second = divmod(round(seconds), 60)
    hours, minute = divmod(minutes, 60)
    return f"{hours}:{minute:02}:{second:02}" if hours else f"{minute}:{second:02}"


def bar(step: str, far: Share, columns: int) -> str:
    """A line for a terminal that is this wide, with a bar if there is room for one and its length is known."""
    texts = [step, str(far)]
    room = columns - 1 - len(_GAP.join([*texts, ""])) - len("[]")
    if far.part is not None and room >= _LEAST_BAR:
        width = min(room, _MOST_BAR)
        done = int(width * far.part)
        texts.insert(1, f"[{'#' * done}{'.' * (width - done)}]")
    return _GAP.join(texts)[:max(0, columns - 1)]
