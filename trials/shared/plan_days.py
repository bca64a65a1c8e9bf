"""Days to be planned, for plan-holds and plan-trials: full days of any number of visits, by a seed, and an airport that is harder than the one of
examples/large. All are invented. The visits are of day 2 of a plan, with stays over the night before it and after it."""

import random

DAY = 1440
# Of the visits of a day: their share, priority, airlines, types with weights, minutes on the ground beyond the type's least, and hours on block
# with weights. In turn: the home carrier, its regional flights, long-haul of priority 2 and 1, holiday flights of priority 5 and 6, small
# aircraft without flight numbers, and freight.
GROUPS = [
    (0.34, 3, ("LH",), {"A320": 6, "A20N": 5, "A21N": 4, "A321": 4, "A319": 3}, (5, 40),
     {6: 5, 7: 6, 8: 3, 9: 4, 10: 2, 11: 3, 12: 6, 13: 3, 14: 2, 15: 3, 16: 5, 17: 6, 18: 4, 19: 4, 20: 3, 21: 2}),
    (0.14, 4, ("LH", "LX", "OS", "SK"), {"E190": 4, "CRJ9": 3, "E195": 3, "BCS3": 3, "AT76": 2, "E290": 1}, (5, 35),
     {6: 4, 7: 6, 8: 3, 9: 3, 11: 3, 12: 5, 13: 2, 16: 5, 17: 6, 18: 3, 20: 3}),
    (0.10, 2, ("LH", "UA", "DL", "QR", "TK"), {"A333": 3, "A359": 3, "B789": 3, "B77W": 2, "A343": 1, "B788": 2, "B763": 1, "B779": 1}, (20, 110),
     {5: 5, 6: 7, 7: 6, 8: 4, 9: 4, 10: 4, 11: 3, 12: 3, 13: 3, 14: 2, 17: 2, 18: 3, 19: 3, 20: 2}),
    (0.03, 1, ("LH", "SQ", "EK", "KE"), {"A388": 2, "B77W": 3, "B748": 1, "A35K": 2, "B779": 2}, (20, 120), {5: 3, 6: 5, 7: 3, 10: 3, 12: 2, 18: 2, 20: 2}),
    (0.18, 5, ("EW", "FR", "U2", "VY"), {"B738": 5, "A320": 4, "B38M": 3, "A21N": 2, "B752": 1}, (0, 30),
     {6: 3, 7: 4, 8: 4, 9: 4, 10: 4, 11: 4, 12: 4, 13: 3, 14: 3, 15: 3, 16: 3, 17: 3, 18: 3, 19: 3, 20: 3, 21: 3, 22: 2}),
    (0.05, 6, ("DE", "X3"), {"A21N": 4, "B738": 4, "A332": 1, "B763": 1}, (10, 60), {6: 2, 8: 3, 10: 3, 12: 3, 14: 2, 16: 2, 18: 2}),
    (0.03, 7, (), {"B190": 3, "CRJ9": 1}, (10, 240), {8: 2, 10: 2, 12: 1, 14: 2, 16: 2}),
    (0.03, 8, ("FX", "5X", "CLX", "GEC"), {"B752": 3, "B763": 2, "B748": 2, "B772": 2, "A306": 2}, (60, 240), {2: 3, 3: 3, 4: 2, 11: 1, 20: 2, 21: 2, 22: 3})]
# The share of the visits that stay over the first night, and the same share over the second; none of them is of priority 1, 7 or 8.
NIGHT = 0.10
DAY_ONLY = {1, 7, 8}


def season(rules, visits, seed):
    """The season file of a day, with types of these rules."""
    dice, made, nights = random.Random(seed), [], round(NIGHT * visits)
    while len(made) < visits:
        night = len(made) // nights if len(made) < 2 * nights else None
        _, of_class, airlines, types, minutes, hours = dice.choices(GROUPS, [it[0] for it in GROUPS])[0]
        if night is not None and of_class in DAY_ONLY:
            continue
        types = {name: weight for name, weight in types.items() if name in rules.type_of}
        type, = dice.choices(list(types), list(types.values()))
        if night is not None:
            begin, end = night * DAY + dice.randrange(1140, 1430, 5), (night + 1) * DAY + dice.randrange(330, 510, 5)
        else:
            hour, = dice.choices(list(hours), list(hours.values()))
            # The home carrier comes in banks, in the first three quarters of an hour.
            begin = DAY + hour * 60 + dice.randrange(0, 45 if of_class in (3, 4) else 60, 5)
            end = begin + rules.types[rules.type_of[type]].least + dice.randrange(minutes[0], minutes[1] + 1, 5)
        made.append((begin, end, type, of_class, dice.choice(airlines) if airlines else ""))
    made.sort()
    rows = [f"V{number},{type},{of_class},{begin},{end},{airline and f'{airline}{100 + number},{begin // DAY + 1}' or ','},,\n"
            for number, (begin, end, type, of_class, airline) in enumerate(made, 1)]
    return "name,type,class,on,off,arr,arrday,dep,depday\n" + "".join(rows)


def narrow_stands():
    """The stands of a narrow airport, as name, frontage, centre, letter, buffer and whole: a pier of narrow-bodies (N) with masts, stands whose
    halves touch the next one's (M), wide-body stands for two A330 side by side but not for two 777 (W), remote stands (S, T), and freight (K)."""
    stands = [(f"N{k + 1}", "N", (3300 if k else 2000) + k * 3900, "C", 10, None) for k in range(12)]
    for k in range(6):
        centre = 8000 + k * 8200
        stands.append((f"M{k + 1}", "M", centre, "F" if k in (0, 5) else "E", 20, None))
        stands += [(f"M{k + 1}{side}", "M", centre + way * 2050, "C", 10, f"M{k + 1}") for side, way in (("L", -1), ("R", 1))]
    stands += [(f"W{k + 1}", "W", 5000 + k * 6900, "F" if k == 7 else "E", 20, None) for k in range(8)]
    stands += [(f"S{k + 1}", "S", 3000 + k * 4100, "C", 5, None) for k in range(10)]
    stands += [(f"T{k + 1}", "T", 4500 + k * 5600, "D" if k % 3 else "E", 5, None) for k in range(6)]
    return stands + [(f"K{k + 1}", "K", 6000 + k * 8000, "F", 30, None) for k in range(3)]


FRONTAGES = {"N": [0, 50100], "M": [0, 57700], "W": [], "S": [], "T": [30000], "K": []}
PAIRS = [("N12", "C", "M1", "E"), ("N11", "C", "M1", "F"), ("M6", "E", "W1", "E"), ("M6R", "C", "W1", "E"), ("W7", "E", "W8", "F"),
         ("S10", "C", "T1", "D"), ("T3", "D", "T4", "E"), ("K1", "E", "T6", "D")]


def narrow_airport():
    """The airport file of the narrow airport."""
    lines = ["frontage = ["] + [f'  {{ name = "{name}", objects = {objects} }},' for name, objects in FRONTAGES.items()] + ["]", "stand = ["]
    for name, frontage, centre, letter, buffer, whole in narrow_stands():
        half = f', half_of = "{whole}"' if whole else ""
        lines.append(f'  {{ name = "{name}", frontage = "{frontage}", centre = {centre}, letter = "{letter}", buffer = {buffer}{half} }},')
    lines += ["]", "pair = ["] + [f'  {{ a = "{a}", la = "{la}", b = "{b}", lb = "{lb}" }},' for a, la, b, lb in PAIRS]
    return "\n".join([*lines, "]", "[airport]", 'station = "NRW"', 'first_day = "2026-07-01"', "days = 4", "taxi_in = 7", "tow = 25", ""])


def narrow_preferences():
    """The preferences of the narrow airport: the home carrier at N and M, freight at K, and passengers at none of S, T and K."""
    kinds = {"N": "contact,1,schengen,LH,,2", "M": "contact,1,,,,2", "W": "contact,2,other,,,2", "S": "remote,,,,,10", "T": "remote,,,,,10",
             "K": "cargo,,,FX 5X CLX GEC,,30"}
    return "stand,kind,terminal,area,airlines,types,cost\n" + "".join(f"{name},{kinds[frontage]}\n" for name, frontage, *_ in narrow_stands())
