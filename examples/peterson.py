#!/usr/bin/env python3
"""Writes Peterson's algorithm for two processes as an automaton in the Hanoi format. With the word `swapped` the two
assignments stand in the wrong order. A word of it says at each moment who waits and who is in the critical section."""
import sys

# A process is idle, has made one assignment of two, waits, or is in its critical section.
IDLE, BEGUN, WAITING, CRITICAL = range(4)
SWAPPED = sys.argv[1:] == ["swapped"]


def step(state, me):
    """The state after a step of a process: the places and the flags of both, and whose turn it is."""
    place, flag, turn = list(state[0]), list(state[1]), state[2]
    if place[me] == (BEGUN if SWAPPED else IDLE):
        flag[me] = True
    elif place[me] == (IDLE if SWAPPED else BEGUN):
        turn = 1 - me
    elif place[me] == CRITICAL:
        flag[me] = False
    elif flag[1 - me] and turn != me:
        return state
    place[me] = (place[me] + 1) % 4
    return tuple(place), tuple(flag), turn


states, body = [((IDLE, IDLE), (False, False), 0)], []
for number, state in enumerate(states):
    holds = [place == at for place in state[0] for at in (WAITING, CRITICAL)]
    body.append("State: [%s] %d" % ("&".join("%s%d" % ("" if it else "!", n) for n, it in enumerate(holds)), number))
    for me in 0, 1:
        after = step(state, me)
        states += [after] * (after not in states)
        # Set 0 is met where process 0 makes a step or is idle, and set 1 likewise.
        marks = [it for it in (0, 1) if it == me or state[0][it] == IDLE]
        body.append("%d {%s}" % (states.index(after), " ".join(map(str, marks))))
print("HOA: v1\nStates: %d\nStart: 0" % len(states))
print('AP: 4 "wait0" "crit0" "wait1" "crit1"\nacc-name: generalized-Buchi 2\nAcceptance: 2 Inf(0)&Inf(1)\n--BODY--')
print("\n".join(body) + "\n--END--")
