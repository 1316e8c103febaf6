#!/usr/bin/env python3
"""Whether what trace.py writes is of the Trace Event Format: trace_form.py < TRACE

Each event has a phase, a time, a process and a track; times of a track don't fall; slices that begin end, the last one
first and by its name; counters are numbers; instants have a scope; each track that has an event has a name. It prints
how many events of each phase there are, or what is wrong, with status 1.
"""
import collections
import json
import sys


def faults(events):
    open_slices, times, named = collections.defaultdict(list), collections.defaultdict(float), set()
    for number, event in enumerate(events):
        kinds = {"ph": str, "ts": (int, float), "pid": int, "tid": int, "name": str}
        if not all(isinstance(event.get(member), kind) for member, kind in kinds.items()):
            yield f"event {number} lacks a member: {event}"
            continue
        phase, track = event["ph"], (event["pid"], event["tid"])
        if phase in "BE" and event["ts"] < times[track]:
            yield f"event {number} is earlier than the one before it on its track"
        times[track] = max(times[track], event["ts"]) if phase in "BE" else times[track]
        if phase == "M":
            named |= {track} if event["name"] == "thread_name" and event["args"]["name"] else set()
        elif track not in named:
            yield f"event {number} is on a track without a name"
        if phase == "B":
            open_slices[track].append(event["name"])
        elif phase == "E" and (not open_slices[track] or open_slices[track].pop() != event["name"]):
            yield f"event {number} ends a slice that isn't the innermost"
        elif phase == "C" and not all(type(value) is int for value in event["args"].values()):
            yield f"event {number} counts what is no number"
        elif phase == "i" and event["s"] not in "gpt":
            yield f"event {number} has no scope"
        elif phase not in "BECiM":
            yield f"event {number} has the phase {phase}"
    yield from (f"{names} never end on {track}" for track, names in open_slices.items() if names)


def main():
    events = json.load(sys.stdin)["traceEvents"]
    found = list(faults(events))
    counts = collections.Counter(event["ph"] for event in events)
    print("\n".join(found) or " ".join(f"{phase} {counts[phase]}" for phase in "MBECi"))
    sys.exit(1 if found else 0)


if __name__ == "__main__":
    main()
