"""The summer day of the large example airport, each of its 407 visits on a stand, at a server that runs."""

import os

from shared import served
from shared.stand_plan import compact

SEASON = os.path.join(served.EXAMPLES, "large", "season.csv")
# The day of the plan on which they are, and more proposals than it takes to place them.
DAY, MOST_PROPOSALS = 2, 20


def started(program, room, workers, screens=0):
    """A server of the day, perhaps with screens that show it. Its visits are put where `apron propose` proposes."""
    server = served.Server(program, room, workers, example="large", screens=screens, day=DAY)
    server.make_journal()
    server.run("import", *server.files, SEASON, server.journal)
    server.start()
    with server.link() as link:
        for draft in range(1, MOST_PROPOSALS):
            commit = proposed(server, draft)
            if not commit["edits"]:
                return server
            reply = link.ask(served.request("POST", "/commits", compact(commit)))
            assert reply.code == 200, f"a proposal was answered {reply}"
    raise AssertionError("proposals do not come to an end")


def proposed(server, draft):
    """The commit that a proposal over a copy of the journal is."""
    lines = server.run("propose", *server.files, "SUMMER", str(draft), server.copy()).decode().splitlines()
    edits = []
    for _, part, stand in (line.split() for line in lines if line.startswith("put ")):
        visit, part = map(int, part.split("."))
        edits.append({"put": {"visit": visit, "part": part, "stand": stand}})
    return {"desk": "SUMMER", "draft": draft, "base": int(lines[0].rpartition(" ")[2]), "edits": edits}
