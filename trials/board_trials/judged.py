"""Trials of the page's rules: against the server, in a browser and by the unit tests that run without one."""

import json
import os
import random
import subprocess

from shared import served
from board_trials import plan

DRAGS, SEED, DAYS = 1000, 17, 3
DRAFTS, SEEDS = 10_000, (1, 2, 3, 4, 5)
UNITS_PATIENCE = 220

JUDGED = """
    const { alarmsOf, fitsOf, indexOf, modelOf } = await import("/rules.js");
    const { judge } = await import("/draft.js").catch(() => import("/rules.js"));
    const [count, seed, days] = args; let state = seed;
    const draw = (below) => { state = (state * 1103515245 + 12345) % 2147483648; return Math.floor(state / 65536) % below; };
    const get = async (target) => (await fetch(target, { cache: "no-store" })).json();
    const model = modelOf(await get("/airport")); let visits, version;
    const look = async () => { visits = new Map(); for (let day = 1; day <= days; day++) { const page = await get(`/day/${day}`); version = page.version; for (const visit of page.visits) visits.set(visit.visit, visit); } };
    await look(); const all = [...visits.keys()]; const tally = {}; const strip = ({ version: _, ...rest }) => JSON.stringify(Object.fromEntries(Object.entries(rest).sort()));
    const post = (target, body) => fetch(target, { method: "POST", body: JSON.stringify(body) });
    for (let number = 1; number <= count; number++) {
      if (number % 20 === 0) {
        const told = [...visits.values()][draw(visits.size)]; const { visit } = told; const minute = told.parts[0].from + draw(9); const stand = model.stands[draw(model.stands.length)].name;
        if (number % 100 === 0) await post("/cancels", { visit });
        else await post("/reports", number % 60 === 0 ? { visit, off: { minute: minute + 90 } } : { visit, on: { part: 1, stand, minute } });
        await look();
      }
      const visit = all[draw(all.length)]; if (!visits.has(visit)) continue; const parts = visits.get(visit).parts.length; const part = 1 + draw(parts); const kind = draw(20);
      const it = visits.get(visit).parts[part - 1];
      const edit = kind === 0 ? { lift: { visit, part } } : kind === 1 ? { cut: { visit, part, at: it.from + draw(it.to - it.from) } } : kind === 2 ? { join: { visit, part } }
        : { put: { visit, part, stand: model.stands[draw(model.stands.length)].name } };
      const mine = judge(model, visits, [edit]);
      // What the rows of a picked part say is what the whole draft is told.
      if (edit.put !== undefined && (mine === null || mine.error === "clash" || mine.error === "unfit")) {
        const others = indexOf(model, [...visits.values()].filter((other) => other.visit !== visit));
        const off = fitsOf(model, others, visits.get(visit), part)[model.standOf.get(edit.put.stand)];
        const same = off === null ? mine === null : JSON.stringify(off.by ?? off.clash) === JSON.stringify(mine?.by ?? (mine && { a: mine.a, b: mine.b, minute: mine.minute, rule: mine.rule }));
        if (!same) return { fault: `${JSON.stringify(edit)}: the row says ${JSON.stringify(off)}, the draft ${JSON.stringify(mine)}` };
      }
      const reply = await post("/commits", { desk: "JUDGE", draft: number, base: version, edits: [edit] });
      const theirs = await reply.json(); const told = reply.status === 200 ? null : theirs;
      const word = told === null ? `taken ${Object.keys(edit)[0]}` : told.error === "clash" ? told.rule : told.error === "unfit" ? (told.by === "letter" ? "letter" : "object") : told.error;
      tally[word] = (tally[word] ?? 0) + 1;
      const late = told?.error === "clash" && !["same", "split"].includes(told.rule) && told.minute > Math.max(...[told.a, told.b].map((at) => visits.get(at.visit).parts[at.part - 1].from));
      if (late) tally["later than the start"] = (tally["later than the start"] ?? 0) + 1;
      if ((mine === null) !== (told === null) || (mine !== null && strip(mine) !== strip(told))) return { fault: `${JSON.stringify(edit)}: the page says ${JSON.stringify(mine)}, the server ${JSON.stringify(told)}` };
      if (told === null) await look();
    }
    // The alarms are those of the server's charts: also of aircraft that stand over midnight.
    for (const { visit, parts: [{ from, to }], state } of [...visits.values()]) {
      for (let day = 1; day < days; day++) if (state === "expected" && from < day * 1440 && to > day * 1440) await post("/reports", { visit, on: { part: 1, stand: model.stands[day].name, minute: from } });
    }
    await look();
    const word = ({ minute, a, b, rule }) => `${Math.floor(minute / 1440) + 1}/${String(Math.floor(minute % 1440 / 60)).padStart(2, "0")}${String(minute % 60).padStart(2, "0")} ${a.visit}.${a.part} ${b.visit}.${b.part} ${rule}`;
    for (let day = 1; day <= days; day++) {
      const mine = alarmsOf(model, indexOf(model, visits.values()), (day - 1) * 1440, day * 1440).map(word).sort().join("\\n");
      const theirs = (await (await fetch(`/chart/${day}`)).text()).split("ALARMS\\n")[1].split("END")[0].trim().split("\\n").sort().join("\\n");
      if (mine !== theirs) return { fault: `alarms of day ${day}: the page has ${mine}, the chart ${theirs}` };
      tally.alarms = (tally.alarms ?? 0) + theirs.split("\\n").length;
    }
    return { tally };
"""

FOLDING = """
pair = [{ a = "P1", la = "F", b = "Q1", lb = "E" }, { a = "P2", la = "C", b = "Q2", lb = "F" }]
frontage = [{ name = "P", objects = [0] }, { name = "Q", objects = [0, 52000] }]
stand = [
  { name = "P1", frontage = "P", centre = 5000, letter = "F", buffer = 10 }, { name = "P2", frontage = "P", centre = 12300, letter = "F", buffer = 15 },
  { name = "P3", frontage = "P", centre = 19600, letter = "F", buffer = 20 }, { name = "P4", frontage = "P", centre = 26900, letter = "E", buffer = 0 },
  { name = "P3L", frontage = "P", centre = 17700, letter = "C", buffer = 10, half_of = "P3" }, { name = "P3R", frontage = "P", centre = 21700, letter = "C", buffer = 10, half_of = "P3" },
  { name = "Q1", frontage = "Q", centre = 4400, letter = "F", buffer = 10 }, { name = "Q2", frontage = "Q", centre = 11600, letter = "F", buffer = 5 },
  { name = "Q3", frontage = "Q", centre = 18900, letter = "F", buffer = 10 }, { name = "Q4", frontage = "Q", centre = 26100, letter = "D", buffer = 10 },
  { name = "Q5", frontage = "Q", centre = 33400, letter = "F", buffer = 12 }, { name = "Q6", frontage = "Q", centre = 40600, letter = "F", buffer = 10 },
  { name = "Q7", frontage = "Q", centre = 47800, letter = "F", buffer = 10 },
]
[airport]
station = "FLD"
first_day = "2026-07-01"
days = 3
taxi_in = 5
tow = 20
"""
FOLDING_TYPES = "type,span,least,parked,fold\nA320,3580,40,3580,0\nB779,7175,60,6485,5\nFLD1,7900,40,5000,20\nFLD2,6490,40,3590,12\nFLD3,5300,30,2300,60\nB77W,6480,60,6480,0\n"


def judged(room):
    """1,000 drawn drags, cuts and joins at an airport of halves, pairs, objects and types that fold their wing tips, with reports and cancels between: the page's rules and the server judge them alike, with the same minute, rule and parts, and have the same alarms."""
    folder = room.kit.folder_of("folding")
    os.mkdir(folder)
    files = [os.path.join(folder, name) for name in ("airport.toml", "types.csv", "season.csv")]
    draws = random.Random(11)
    season = ["name,type,class,on,off,arr,arrday,dep,depday"]
    for number in range(70):
        on, kind = draws.randrange(10, DAYS * 1440 - 400), draws.choice(["A320", "B779", "B779", "FLD1", "FLD2", "FLD3", "B77W"])
        season.append(f"V{number},{kind},{draws.randrange(10)},{on},{on + draws.randrange(65, 390)},,,,")
    for path, text in zip(files, (FOLDING, FOLDING_TYPES, "\n".join(season) + "\n")):
        with open(path, "w") as file:
            file.write(text)
    server = served.Server(room.kit.program, folder, plan.WORKERS)
    server.files = files[:2]
    server.make_journal()
    server.run("import", *files, server.journal)
    server.start()
    room.ends.append(server.kill)
    desk = room.desk(proxy=room.address(server.port), bars=False)
    told = desk.page.run(JUDGED, DRAGS, SEED, DAYS, patience=UNITS_PATIENCE)
    assert "tally" in told, f"they differ: {told}"
    return ", ".join(f"{count} {word}" for word, count in sorted(told["tally"].items()))


def units(room):
    """The unit tests of the page's pure modules, without a browser, with the server's judgement as the oracle."""
    folder = os.path.join(room.kit.source, "tests")
    ran = subprocess.run(["node", "--test", folder + "/"], cwd=room.kit.source, stdout=subprocess.PIPE, stderr=subprocess.STDOUT, text=True, timeout=UNITS_PATIENCE)
    counts = dict(line[2:].split(" ", 1) for line in ran.stdout.splitlines() if line.startswith(("# tests", "# pass", "# fail")))
    assert ran.returncode == 0, f"node --test ended with {ran.returncode}: {ran.stdout[-600:]}"
    return ", ".join(f"{count} {word}" for word, count in counts.items())


def oracle(room):
    """10,000 random drafts of one to eight edits over up to three days, in plans of several seeds: the page's modules and the server say the same of each."""
    script = os.path.join(room.kit.source, "tests", "oracle", "oracle.mjs")
    told = []
    for seed in SEEDS:
        ran = subprocess.run(["node", script, room.kit.program, str(seed), str(DRAFTS // len(SEEDS))], stdout=subprocess.PIPE, stderr=subprocess.PIPE, text=True, timeout=UNITS_PATIENCE)
        assert ran.returncode == 0, f"with seed {seed} they differ: {(ran.stdout + ran.stderr)[-500:]}"
        told.append(sum(it for it in json.loads(ran.stdout).values() if isinstance(it, int)))
    return f"{sum(told)} cases"


TRIALS = (judged, units, oracle)
