#!/usr/bin/env python3
"""trace.py TRACE STATS MOST: holds a trace of the program against the times of the same run, which it told by
--stats=json in one line behind others, and against the most turns and waits that it may have. Where none is left out it
looks at each block: its track, its turns, which do not overlap, and how often it fired in them. It prints what is
wrong, and ends in status 1 then."""

import json
import sys
from fractions import Fraction


def wrong(text):
    print(text)
    sys.exit(1)


def read(path, times_too):
    """The trace, with times as exact numbers, and the times that the last line tells, where they are told."""
    with open(path, encoding="ascii") as file:
        if times_too:
            return json.loads(file.read().splitlines()[-1])
        return json.loads(file.read(), parse_float=Fraction)


def events_by_track(trace):
    """The names of the tracks by number, and the events of each, which are turns and waits alone."""
    names, events = {}, {}
    for event in trace["traceEvents"]:
        track = event["tid"]
        if event["ph"] == "M" and event["name"] == "thread_name":
            names[track] = event["args"]["name"]
            events[track] = []
        elif event["ph"] == "M":
            if (event["name"], event["args"]) != ("thread_sort_index", {"sort_index": track}):
                wrong(f"another word on a track: {event}")
        elif (
            event["pid"] != 1
            or event["cat"] not in ("turn", "wait")
            or event["ph"] not in ("X", "i")
            or event["ts"] < 0
        ):
            wrong(f"another event: {event}")
        else:
            events[track].append(event)
    return names, events


def check_events(block, name, events):
    """That what a block did has its name or says for whom it waited, and that one comes behind the other."""
    end = 0
    for event in events:
        if event["ts"] < end:
            wrong(f"{name}: {event} begins before {float(end)}")
        end = event["ts"] + event.get("dur", 0)
        if (event["cat"] == "turn") != (event["name"] == name):
            wrong(f"{name}: another name: {event}")
        if event["cat"] == "turn" and (event["ph"] != "X" or event["args"]["firings"] < 1):
            wrong(f"{name}: a turn without an end or a firing: {event}")
        if event["ph"] == "i" and event is not events[-1]:
            wrong(f"{name}: a wait without an end is not the last: {event}")
    if block is not None:
        check_sums(block, name, events)


def check_sums(block, name, events):
    """That a block has as many firings, turns and waits as are told of it."""
    turns = [event for event in events if event["cat"] == "turn"]
    came = (sum(event["args"]["firings"] for event in turns), len(turns))
    if came != (block["firings"], block["turns"]):
        wrong(f"{name}: its turns have {came}, and told are {block['firings'], block['turns']}")
    told = {}
    for wait in block["waits"]:
        told[f"waits for {wait['for']} of {' and '.join(wait['of'])}"] = wait["count"]
    waits = {}
    for event in events:
        # (a source waits for what it is fed at none of its ports, and no time is told of it)
        if event["cat"] == "wait" and event["name"] != "waits to be fed":
            waits[event["name"]] = waits.get(event["name"], 0) + 1
    if waits != told:
        wrong(f"{name}: its waits are {waits}, and told are {told}")


def main(path, stats, most):
    trace, times = read(path, False), read(stats, True)
    names, events = events_by_track(trace)
    if list(names.values()) != [block["name"] for block in times["blocks"]]:
        wrong(f"other tracks: {names}")
    count, left_out = (trace["otherData"][key] for key in ("events", "left_out"))
    if sum(len(it) for it in events.values()) != count or count > int(most) or (left_out > 0 and count != int(most)):
        wrong(
            f"{count} events, {left_out} left out, {sum(len(it) for it in events.values())} in the file, and room for "
            f"{most}"
        )
    for (track, name), block in zip(names.items(), times["blocks"]):
        check_events(block if left_out == 0 else None, name, events[track])
    if left_out == 0 and min(event["ts"] for it in events.values() for event in it) != 0:
        wrong("no event begins at 0")


main(*sys.argv[1:])
