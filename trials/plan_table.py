"""The tables of trials/plan-trials, for documents: of each size and method the middle one of the seeds, with the least and the greatest."""

import statistics

TITLES = {"empty": "Days that begin empty", "tidy": "Days of which 30 % is planned tidily, with the aircraft of the night on block"}
ORDER = ["propose", "fit", "chain", "search", "chain --moves 10", "search --moves 10"]
HEAD = ("| Airport, visits | Method | Seeds | Left | Left by class, all seeds together | Weight left | Passengers on remote stands | Cost | Moves | "
        "Close gaps | Processor seconds | Drafts, refused |\n" + "|---" * 12 + "|")


def weight_of(left):
    """The weight of the parts left: a priority weighs as much as two of the next one."""
    return sum(count * 2 ** (len(left) - 1 - of_class) for of_class, count in enumerate(left))


def spread(values, form="{:.0f}"):
    """The middle value, and the least and the greatest in brackets if they differ."""
    least, middle, most = (form.format(it) for it in (min(values), statistics.median_low(values), max(values)))
    return middle if least == most else f"{middle} ({least} to {most})"


def line(rows):
    """A line of a table, of the seeds of one size and method."""
    first = rows[0]
    method = first["method"] + (f", {first['limit']} s" if first["limit"] else "")
    together = [sum(it["left"][of_class] for it in rows) for of_class in range(10)]
    by_class = " ".join(f"{of_class}:{count}" for of_class, count in enumerate(together) if count) or "-"
    columns = [str(len(rows)), spread([sum(it["left"]) for it in rows]), by_class, spread([weight_of(it["left"]) for it in rows])]
    columns += [spread([it[name] for it in rows]) for name in ("remote", "cost", "moves", "close")]
    columns += [spread([it["seconds"] for it in rows], "{:.1f}"), f"{sum(it['drafts'] for it in rows)}, {sum(it['refused'] for it in rows)}"]
    return f"| {first['airport']} {first['visits']} | {method} | {' | '.join(columns)} |"


def brief(results):
    """A short table of the parts left on days that begin empty."""
    groups = {}
    for row in results:
        if row["state"] == "empty":
            groups.setdefault(row["method"], {}).setdefault((row["airport"], row["visits"]), []).append(sum(row["left"]))
    sizes = sorted({size for it in groups.values() for size in it}, key=lambda size: (size[0] == "large", size))
    lines = ["| Parts left | " + " | ".join(f"{airport} {visits}" for airport, visits in sizes) + " |", "|---" * (len(sizes) + 1) + "|"]
    for method in sorted(groups, key=ORDER.index):
        cells = [f"{min(found)}/{statistics.median_low(found)}/{max(found)}" for found in (groups[method][size] for size in sizes)]
        lines.append(f"| `{method}` | {' | '.join(cells)} |")
    return "Parts left on days that begin empty, the least/middle/greatest number of the seeds:\n\n" + "\n".join(lines)


def table(results):
    """The tables of these results: a short one, one for each state, and one of bounds."""
    parts = [brief(results)]
    for state in dict.fromkeys(it["state"] for it in results if it["state"] != "bound"):
        groups = {}
        for row in results:
            if row["state"] == state:
                groups.setdefault((row["airport"], row["visits"], ORDER.index(row["method"]), row["limit"] or 0), []).append(row)
        parts.append(f"{TITLES[state]}:\n\n{HEAD}\n"
                     + "\n".join(line(groups[key]) for key in sorted(groups, key=lambda key: (key[0] == "large", *key))))
    bounds = [it for it in results if it["state"] == "bound"]
    if bounds:
        parts.append(bound_table(bounds, results))
    return "\n\n".join(parts)


def bound_table(bounds, results):
    """How far the best plan that was found is from what any plan has to leave."""
    lines = ["| Airport, visits | Seed | Any plan leaves at least | Best found | Weight at least | Best found | Processor seconds |", "|---|---|---|---|---|---|---|"]
    for it in sorted(bounds, key=lambda it: (it["airport"] == "large", it["visits"], it["seed"])):
        key = it["airport"], it["visits"], it["seed"], "empty"
        found = [row["left"] for row in results if (row["airport"], row["visits"], row["seed"], row["state"]) == key]
        best = (str(min(map(sum, found))), str(min(map(weight_of, found)))) if found else ("", "")
        least = ["did not end" if it[name] is None else str(it[name]) for name in ("least", "weight")]
        lines.append(f"| {it['airport']} {it['visits']} | {it['seed']} | {least[0]} | {best[0]} | {least[1]} | {best[1]} | {it['seconds']:.0f} |")
    return "What any plan of an empty day has to leave, if no stay is cut:\n\n" + "\n".join(lines)
