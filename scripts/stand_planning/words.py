"""What a planner is told: a plan in a controller's words, what is left and why, and scores beside each other. Times are written as in a wall
chart: 2/1050 is 10:50 UTC of the second day."""

from stand_planning.methods import waiting
from stand_planning.rules import DAY

LEFT = ["left", "type", "class", "from", "to", "stands", "nearest", "why"]


def time_of(minute):
    return f"{minute // DAY + 1}/{minute % DAY // 60:02}{minute % 60:02}"


def label_of(part):
    """The flight or the visit's name of a part, and its number if it is not the first."""
    return f"{part.label} part {part.number}" if part.number > 1 else part.label


def name_of(airport, part):
    """A part as a controller knows it."""
    return f"{label_of(part)} {airport.rules.types[part.type].name} class {part.of_class} {time_of(part.begin)}-{time_of(part.end)}"


def changes(airport, allocation, cuts):
    """A line for each part that gets a stand, moves or is split, in the order of their times."""
    names, lines = airport.names, []
    for it in allocation.parts:
        if it.is_free and it.cut is None and it.stand is not None and it.stand != it.was:
            way = f"to {names[it.stand]}" if it.waits else f"moves from {names[it.was]} to {names[it.stand]}"
            lines.append((it.begin, f"{name_of(airport, it)}: {way}"))
    for cut in cuts:
        one, two = cut.pieces
        lines.append((one.begin, f"{name_of(airport, cut.part)}: split at {time_of(one.end)}: to {names[one.stand]}, then tow, and from "
                      f"{time_of(two.begin)} to {names[two.stand]}"))
    return [line for _, line in sorted(lines)]


def closures(airport, allocation):
    """A line for each closure that has no stand, in the order of their times."""
    return [f"{name_of(airport, it)}: a closure without a stand, which is not planned; cancel it, and close the stand again on the board"
            for it in sorted(allocation.parts, key=lambda it: it.begin) if it.waits and not it.is_free]


def left_table(airport, allocation):
    """The lines of a table of the parts that are left, by rank: how many stands fit, where the least is in the way, and what."""
    rows = [LEFT, *(left_row(airport, allocation, it) for it in waiting(allocation))]
    widths = [max(len(row[column]) for row in rows) for column in range(len(LEFT) - 1)] + [0]
    return ["  ".join(word.ljust(width) for word, width in zip(row, widths)) for row in rows] if len(rows) > 1 else []


def left_row(airport, allocation, part):
    type = airport.rules.types[part.type].name
    return [label_of(part), type, str(part.of_class), time_of(part.begin), time_of(part.end), str(len(part.options)), *nearest(airport, allocation, part)]


def nearest(airport, allocation, part):
    """Of the stands that the part fits, the one where the least is in its way, and what that is."""
    if not part.options:
        return "-", "no stand takes this type: code letter or an object of the frontage"
    chances = []
    for stand in part.options:
        common = [(min(part.end + allocation.buffer[stand], it.end + allocation.buffer[it.stand]) - max(part.begin, it.begin), it)
                  for it in allocation.blockers(part, stand)]
        chances.append((len(common), sum(minutes for minutes, _ in common), stand, common[0][1]))
    count, minutes, stand, it = min(chances, key=lambda chance: chance[:3])
    where = f" on {airport.names[it.stand]}" if it.stand != stand else ""
    more = f", and {count - 1} more" if count > 1 else ""
    return airport.names[stand], f"{minutes} minutes in common with {name_of(airport, it)}{where}{more}"


class Score:
    """What is compared of plans: the parts left by priority, passengers on remote or cargo stands, the cost of preferences, moves, and gaps
    that are closer than the slack."""

    def __init__(self, airport, allocation, preferences):
        on_stands = [it for it in allocation.parts if it.is_free and it.stand is not None]
        self.left, self.moves, self.gaps = list(allocation.left), allocation.moves, allocation.tight_gaps()
        self.cost = sum(it.costs.get(it.stand, 0) for it in on_stands)
        self.bussed = sum(preferences.is_bussed(it.airline, airport.rules.types[it.type].name, airport.names[it.stand]) for it in on_stands)

    def row(self, name):
        """A line of the table of scores."""
        by_class = " ".join(f"{of_class}:{count}" for of_class, count in enumerate(self.left) if count)
        return f"{name:20} {sum(self.left):5}  {by_class or '-':38} {self.bussed:6} {self.cost:6} {self.moves:6} {self.gaps:6}"


HEADING = f"{'':20} {'left':>5}  {'by class':38} {'remote':>6} {'cost':>6} {'moves':>6} {'close':>6}"
