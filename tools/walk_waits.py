#!/usr/bin/env python3
"""Walks all schedules of prompt callers at the lock of book_lock, and prints whether one of them sleeps for ever.

    tools/walk_waits.py [CALLERS [ROUNDS [LOOKS [MISTAKE]]]]    by default 3 callers, 2 rounds each, no second look

Each access of `take` and `put_back` to the lock's word and to `Waiters` (crates/book_lock/src/lock) is a step of its
own, in the order that ARCHITECTURE, "Waiting", gives. With a MISTAKE one access is left out, and the walk must find the
consequence. The mistakes are `unchecked` (a caller that sleeps doesn't look whether the lock is free), `kept` (the next
caller takes the lock and stays next) and `uncalled` (`put_back` calls no caller).
"""
import sys
from collections import deque, namedtuple

NOBODY, CALLED, AWAKE = 0, 1, 2

# `word` is 1 while the lock is taken; `asleep` counts prompt callers that sleep or are about to; a caller is where it stands, its rounds
# that are left, how often it has looked, and what it has read.
State = namedtuple('State', 'word next asleep lookers callers')


def after(state, i, looks, mistake):
    """The states that one more step of a caller can lead to."""
    at, rounds, looked, read = state.callers[i]
    found = []

    def go(to, looked=0, read=0, rounds=rounds, woken=None, **changed):
        callers = list(state.callers)
        callers[i] = (to, rounds, looked, read)
        if woken is not None:
            callers[woken] = ('asleep: try', *callers[woken][1:])
        found.append(state._replace(callers=tuple(sorted(callers)), **changed))

    # A load, and then an exchange where it found what it should: `Waiters::change`.
    def change(load, exchange, was, to, yes, no, **both):
        if at == load:
            go(exchange, looked) if state.next == was else go(no, looked)
        elif state.next == was:
            go(yes, next=to)
        else:
            go(no, looked)

    # `Waiters::call`, by who frees the lock or by who is about to sleep.
    def call(who, behind):
        if at == who + ': counter':
            go(who + ': load' if state.asleep else behind)
        elif at == who + ': wake':
            sleepers = [k for k, caller in enumerate(state.callers) if caller[0] == 'sleeping']
            for k in sleepers:
                go(behind, woken=k)
            if not sleepers:
                go(behind)
        else:
            change(who + ': load', who + ': exchange', NOBODY, CALLED, who + ': wake', behind)

    if at == 'take':
        if rounds == 0:
            go('done')
        elif state.word == 0:
            go('free', word=1)
        else:
            go('next: load')
    elif at in ('next: load', 'next: exchange'):
        change('next: load', 'next: exchange', NOBODY, AWAKE, 'next', 'lookers')
    elif at == 'lookers':
        go('look: load', lookers=1) if state.lookers == 0 else go('count')
    elif at in ('look: load', 'look: exchange'):
        again = ('look: load', looked + 1) if looked < looks else ('look: end', 0)
        if at == 'look: load':
            go('look: exchange', looked) if state.next == NOBODY else go(*again)
        else:
            go('look: won', next=AWAKE) if state.next == NOBODY else go(*again)
    elif at == 'look: won':
        go('next', lookers=0)
    elif at == 'look: end':
        go('count', lookers=0)
    elif at == 'next':
        if state.word == 0:
            go('free' if mistake == 'kept' else 'arrive', word=1)
        elif looked < looks:
            go('next', looked + 1)
        else:
            go('leave')
    elif at == 'leave':
        go('count', next=NOBODY)
    elif at == 'arrive':
        go('free', next=NOBODY)
    elif at == 'free':
        go('take' if mistake == 'uncalled' else 'freed: counter', rounds=rounds - 1, word=0)
    elif at.startswith('freed'):
        call('freed', 'take')
    elif at == 'count':
        go('asleep: try' if mistake == 'unchecked' else 'check', asleep=state.asleep + 1)
    elif at == 'check':
        go('mine: counter' if state.word == 0 else 'asleep: try')
    elif at.startswith('mine'):
        call('mine', 'asleep: try')
    elif at in ('asleep: try', 'asleep: exchange'):
        change('asleep: try', 'asleep: exchange', CALLED, AWAKE, 'asleep: end', 'asleep: read')
    elif at == 'asleep: read':
        go('asleep: try') if state.next == CALLED else go('asleep: park', read=state.next)
    elif at == 'asleep: park':
        go('sleeping' if state.next == read else 'asleep: try')
    elif at == 'asleep: end':
        go('next', asleep=state.asleep - 1)
    return found


def main():
    given = sys.argv[1:]
    callers, rounds, looks = [int(word) for word in given[:3]] + [3, 2, 0][len(given[:3]):]
    mistake = given[3] if len(given) > 3 else None
    first = State(0, NOBODY, 0, 0, (('take', rounds, 0, 0),) * callers)
    seen, waiting, ends, stuck = {first}, deque([first]), 0, 0
    while waiting:
        state = waiting.popleft()
        goes_on = False
        for i in range(callers):
            for other in after(state, i, looks, mistake):
                goes_on = True
                if other not in seen:
                    seen.add(other)
                    waiting.append(other)
        if not goes_on:
            ends += 1
            stuck += any(caller[0] != 'done' for caller in state.callers)
    print(f'{len(seen):,} states, {ends} ends, {stuck} of them with a caller that sleeps for ever')
    sys.exit(stuck != 0)


if __name__ == '__main__':
    main()
