"""The trials of the board, by subject."""

from board_trials import basic, cost, drafts, faults, firefox, judged, looks, night, planner, safe, soon, work

TRIALS = tuple(trial for subject in (basic, drafts, faults, night, soon, work, planner, safe, looks, judged, firefox, cost) for trial in subject.TRIALS)
