"""Trials of what a planner gives the board: preferences, and a file of drafts."""

import json
import os
import subprocess
import sys

from shared import SCRIPTS
from board_trials.desk import wait, waiting_item
from board_trials.faulty import PREFERENCES
from board_trials.plan import DAY
from stand_planning import preferences as planning

NOW = "2026-07-02T10:20Z"
# What the page's module makes of the file that is served beside it, for pairs of an airline and a type.
COSTS = """
  const { costsOf, readPreferences } = await import("/preferences.js");
  const { modelOf } = await import("/rules.js");
  const model = modelOf(await (await fetch("/airport")).json());
  const { records } = readPreferences(await (await fetch("/preferences.csv")).text(), model);
  return args[0].map(([airline, type]) => costsOf(model, records, airline, type));
"""
MOST_PICKED = 5


def kind_of(visit):
    flight = visit["arr"] or visit["dep"]
    return planning.airline_of(flight["flight"]) if flight else "", visit["type"]


def costs_of(room, wanted, kind):
    """What a part costs on each stand, as scripts/plan counts it; None where its type does not fit."""
    costs, number = wanted.costs(*kind), room.airport.type_of[kind[1]]
    return [None if room.airport.unfit(place, number) is not None else costs.get(it["name"], 0) for place, it in enumerate(room.airport.stands)]


def preferences(room):
    """The rows where the picked part would rather stand are marked, and cost it what scripts/plan counts; a fault of the file is told with its line and column."""
    wanted = planning.read(PREFERENCES, room.airport)
    desk = room.desk(size=(1920, 2600))
    kinds = sorted({kind_of(it) for it in room.visits()})
    costs = [costs_of(room, wanted, kind) for kind in kinds]
    assert desk.run(COSTS, kinds) == costs, "the page counts other costs than scripts/plan"
    names, marked = [it["name"] for it in room.airport.stands], 0
    for visit in room.waiting()[:MOST_PICKED]:
        desk.click(waiting_item(visit["visit"]))
        wait("it is picked", lambda visit=visit: desk.count(f'{waiting_item(visit["visit"])}.picked'), 5)
        rows = wait("rows are marked", lambda: desk.texts(".row.preferred .stand b"), 5)
        known = costs[kinds.index(kind_of(visit))]
        least = min(it for it in known if it is not None)
        there = set(desk.texts(".row .stand b"))
        assert rows == [name for name, cost in zip(names, known) if cost == least and name in there], f"for {kind_of(visit)} {rows} are marked"
        marked += len(rows)
        desk.keys("Escape")
    wait("no row is marked while nothing is picked", lambda: not desk.count(".row.preferred"), 5)
    faulty = os.path.join(room.folder, "preferences.csv")
    with open(PREFERENCES) as file, open(faulty, "w") as made:
        made.write(file.read().replace(",remote,", ",gate,", 1))
    proxy = room.address(room.server.port)
    proxy.preferences = faulty
    told = wait("the fault is told", lambda desk=room.desk(proxy=proxy): desk.shown("#filenote") and desk.text("#filenote"))
    assert "kind 'gate' is none of contact, remote, cargo" in told, told
    return f"{len(kinds)} kinds of parts; {marked} rows marked"


def lift(room, count):
    """Has another client deallocate this number of parts that begin later; the visits."""
    later = [it for it in room.visits() if it["state"] == "expected" and it["parts"][0]["stand"] and it["parts"][0]["from"] > room.now() + 90]
    for begin in range(0, count, 60):
        edits = [{"lift": {"visit": it["visit"], "part": 1}} for it in later[begin:min(begin + 60, count)]]
        code, reply = room.asked.post("/commits", {"desk": "OTHER", "draft": begin + 1, "base": room.version(), "edits": edits})
        assert code == 200, reply
    return [it["visit"] for it in later[:count]]


def open_file(desk, path):
    """Opens a file as a person does who chooses it."""
    root = desk.page.call("DOM.getDocument")["root"]["nodeId"]
    node = desk.page.call("DOM.querySelector", nodeId=root, selector="#planfile")["nodeId"]
    desk.page.call("DOM.setFileInputFiles", nodeId=node, files=[path])


def plan_file(room):
    """A file that scripts/plan wrote opens as one draft after the other, also after a reload: each is judged, one that was overtaken is called so, and a person publishes it."""
    lift(room, 80)
    path = os.path.join(room.folder, "plan.json")
    words = [os.path.join(SCRIPTS, "plan"), f"127.0.0.1:{room.server.port}", "--preferences", PREFERENCES, "--from", str(DAY), "--to", str(DAY),
             "--now", NOW, "--dry-run", "--draft", path]
    subprocess.run([sys.executable, *words], check=True, stdout=subprocess.DEVNULL, timeout=100)
    with open(path) as file:
        plan = json.load(file)
    assert len(plan["drafts"]) == 2, f"the plan has drafts of {plan['drafts']} edits"
    wrong = os.path.join(room.folder, "wrong.json")
    with open(wrong, "w") as file:
        json.dump({**plan, "station": "XYZ"}, file)
    desk = room.desk()
    open_file(desk, wrong)
    wait("it says why it can't", lambda: "plan of XYZ" in desk.text("#dialog"), 5)
    desk.keys("Escape")
    for number, count in enumerate(plan["drafts"], 1):
        if number == 1:
            open_file(desk, path)
        else:
            wait("the next draft is offered", lambda: f"draft 2 of 2, with {count} changes" in desk.text("#draft"))
            taken = plan["edits"][-1]["put"]["visit"]
            room.asked.post("/commits", {"desk": "OTHER", "draft": 900, "base": room.version(), "edits": [{"lift": {"visit": taken, "part": 1}}]})
            desk.reload()
            desk.click("#opennext")
            wait("it is called overtaken", lambda: "Overtaken" in desk.text("#draft"))
            desk.click("#again")
        wait("the draft has its edits", lambda count=count: desk.count("#draft li") == count)
        wait("it fits", lambda: "Fits" in desk.text("#draft"))
        desk.publish()
        wait("it is in the plan", lambda: not desk.count("#draft li"))
    stands = {edit["put"]["visit"]: edit["put"]["stand"] for edit in plan["edits"]}
    assert {it: room.stand_of(it) for it in stands} == stands, "the plan is not that of the file"
    assert desk.shown("#openfile"), "the file is not at its end"
    return f"drafts of {plan['drafts']} edits"


TRIALS = (preferences, plan_file)
