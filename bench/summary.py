#!/usr/bin/env python3
"""Sums up the turns of bench/run: summary.py FILE.. of what both sides printed. It fails where two sides, or two turns, end differently on
one plan."""
import collections
import statistics
import sys

CALLS = ("earliest", "latest", "spread", "flow")
PEERS = ("Boost", "LEMON", "rounds", "changes")

# the nanoseconds of each turn, by the plan and what was measured
times = collections.defaultdict(lambda: collections.defaultdict(list))
ends = {}
# how many numbers are tried for the flow of a plan that has one
asked = {}


def ended(plan, outcome, who):
    known = ends.setdefault(plan, outcome)
    if known != outcome:
        sys.exit(f"{' '.join(plan)}: {who} ends in {outcome}, and another in {known}")


def read(path):
    for words in map(str.split, open(path)):
        if words[0] == "calls":
            plan = tuple(words[1:3])
            ended(plan, words[4], "earliest")
            for call, nanos in zip(CALLS, words[5:], strict=True):
                times[plan][call].append(int(nanos))
        elif words[0] == "asked":
            plan = tuple(words[1:3])
            ended(("tries of", *plan), words[3], "flow")
            asked[plan] = int(words[3])
        elif words[0] == "build":
            plan = tuple(words[1:3])
            ended(plan, words[3], "earliest of the plan built by set")
            times[plan]["build"].append(int(words[4]))
        elif words[0] == "repairs":
            plan = tuple(words[1:3])
            ended(("repairs of", *plan), words[3], "the plan built by repairs")
            times[plan]["repairs"].append(int(words[4]))
        else:
            plan = tuple(words[:2])
            for peer, outcome, nanos in zip(PEERS, words[2::2], words[3::2], strict=True):
                ended(plan, outcome, peer)
                times[plan][peer].append(int(nanos))


def spread(values):
    return f"{min(values):.2f}..{max(values):.2f}"


def show_ratio(plans, above, below):
    """The median over the plans, and how far it goes: over the plans, and from turn to turn."""
    by_plan = [[a / b for a, b in zip(times[plan][above], times[plan][below], strict=True)] for plan in plans]
    of_plans = [statistics.median(turns) for turns in by_plan]
    of_turns = [statistics.median(turn) for turn in zip(*by_plan)]
    print(
        f"  {above + ' / ' + below:20} {statistics.median(of_plans):8.2f}"
        f"   plans {spread(of_plans):18} turns {spread(of_turns)}"
    )


def micros(plans, what):
    return statistics.median(statistics.median(times[plan][what]) for plan in plans) / 1000


for path in sys.argv[1:]:
    read(path)
for kind in dict.fromkeys(plan[0] for plan in times):
    plans = [plan for plan in times if plan[0] == kind]
    print(f"{kind}: {len(plans)} plans; microseconds: " + ", ".join(f"{what} {micros(plans, what):.2f}" for what in CALLS + PEERS))
    for peer in PEERS:
        show_ratio(plans, "earliest", peer)
    show_ratio(plans, "latest", "earliest")
    show_ratio(plans, "spread", "earliest")
    show_ratio(plans, "flow", "earliest")
    tried = [asked[plan] for plan in plans if asked[plan] > 0]
    if tried:
        print(f"  tried for a flow: {statistics.mean(tried):.1f} numbers on average, at most {max(tried)}")
    if "build" in times[plans[0]]:
        print(f"  built by a call of set for each lag: {micros(plans, 'build') / 1000:.1f} milliseconds a plan")
        print(f"  built by a repair for each lag: {micros(plans, 'repairs'):.1f} microseconds a plan")
print("every verdict and every row of least times is the same on both sides")
