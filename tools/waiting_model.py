#!/usr/bin/env python3
"""How the seats of a turn lock wait, step by step: every order of every step is tried.

tools/waiting_model.py [BUG] prints how many states there are, and one from which no seat goes on, if there is any.

The steps are those of crates/turn_lock: src/lock.rt (take, give), src/waiting.rt and src/sleepers.rt. Each load, store, addition, sleep and wake is one step. All
times are left out: a seat sleeps until it is woken, and never for 50 milliseconds alone, so that a wake that is lost leaves a state that nobody leaves. One look
stands for several, since the others change nothing. There is one place to sleep at with a ticket, where the program has 16 for tickets that differ by 16.
"""
import sys
from collections import namedtuple

SEATS, TURNS, SLEEPS = 3, 2, 3

# The bugs that can be put in, each with what is left out or wrong.
BUGS = {
    'no count before sleeping': 'a seat that is about to sleep does not count itself',
    'no second look': 'a seat that counted itself sleeps without looking again',
    'a call never taken back': 'a seat that was called and came leaves the call standing',
    'no call after a wake': 'whoever hands on to nobody calls nobody',
    'marks that are alike': 'two tickets at one place have the same mark',
}

# What all seats see: the next ticket, the one that is served, how many seats sleep or are about to, whether one was called, and the mark at the place.
Shared = namedtuple('Shared', 'next served count called mark')

# A seat: its next step, its ticket (else -1), what it read of the next ticket (else -1), how often it slept without a ticket, and its turns to come.
Seat = namedtuple('Seat', 'step ticket read slept turns')

BEGIN = Seat('look', -1, -1, 0, TURNS)
ASLEEP = {'asleep': 'come', 'asleep in line': 'leave'}


class Model:
    """The steps of a seat; with a bug, those that are wrong by it."""

    def __init__(self, bug=None):
        assert bug is None or bug in BUGS
        self.bug = bug
        self.steps = {name.removeprefix('do_').replace('_', ' '): getattr(self, name) for name in dir(self) if name.startswith('do_')}

    def counted(self, shared, change):
        return shared if self.bug == 'no count before sleeping' else shared._replace(count=shared.count + change)

    def mark_of(self, ticket):
        return 1 if self.bug == 'marks that are alike' else 2 * ticket + 1

    # ---- before a ticket is drawn: a look whether nobody has the turn, and a sleep

    def do_look(self, shared, seat):
        return shared, seat._replace(step='look further', read=shared.next)

    def do_look_further(self, shared, seat):
        return shared, seat._replace(step='announce' if seat.read > shared.served else 'draw', read=-1)

    def do_announce(self, shared, seat):
        return self.counted(shared, 1), seat._replace(step='sleep' if self.bug == 'no second look' else 'look again')

    def do_look_again(self, shared, seat):
        return shared, seat._replace(step='look again further', read=shared.next)

    def do_look_again_further(self, shared, seat):
        return shared, seat._replace(step='sleep' if seat.read > shared.served else 'come', read=-1)

    def do_sleep(self, shared, seat):
        return shared, seat._replace(step='asleep' if shared.called == 0 else 'come')

    def do_come(self, shared, seat):
        return self.counted(shared, -1), seat._replace(step='take back')

    def do_take_back(self, shared, seat):
        called = shared.called if self.bug == 'a call never taken back' else 0
        return shared._replace(called=called), seat._replace(step='draw' if seat.slept + 1 == SLEEPS else 'look', slept=seat.slept + 1)

    # ---- with a ticket: a look whether it is served, and a sleep at its place

    def do_draw(self, shared, seat):
        return shared._replace(next=shared.next + 1), seat._replace(step='wait', ticket=shared.next, slept=0)

    def do_wait(self, shared, seat):
        return shared, seat._replace(step='hand on' if shared.served == seat.ticket else 'announce in line')

    def do_announce_in_line(self, shared, seat):
        return self.counted(shared, 1), seat._replace(step='set mark')

    def do_set_mark(self, shared, seat):
        step = 'sleep in line' if self.bug == 'no second look' else 'look in line'
        return shared._replace(mark=self.mark_of(seat.ticket)), seat._replace(step=step)

    def do_look_in_line(self, shared, seat):
        return shared, seat._replace(step='leave' if shared.served == seat.ticket else 'sleep in line')

    def do_sleep_in_line(self, shared, seat):
        return shared, seat._replace(step='asleep in line' if shared.mark == self.mark_of(seat.ticket) else 'leave')

    def do_leave(self, shared, seat):
        return self.counted(shared, -1), seat._replace(step='wait')

    # ---- with the turn: it is handed on, and whoever can go on is woken

    def do_hand_on(self, shared, seat):
        return shared._replace(served=seat.ticket + 1), seat._replace(step='read count', ticket=-1)

    def do_read_count(self, shared, seat):
        return shared, self.after_turn(seat) if shared.count == 0 else seat._replace(step='read mark')

    def do_read_mark(self, shared, seat):
        return shared, seat._replace(step='look left' if shared.mark == 0 else 'clear mark')

    def do_clear_mark(self, shared, seat):
        return shared._replace(mark=0), seat._replace(step='wake all')

    def do_look_left(self, shared, seat):
        if self.bug == 'no call after a wake':
            return shared, self.after_turn(seat)
        return shared, seat._replace(step='look left further', read=shared.next)

    def do_look_left_further(self, shared, seat):
        return shared, self.after_turn(seat) if seat.read > shared.served else seat._replace(step='read call', read=-1)

    def do_read_call(self, shared, seat):
        return shared, seat._replace(step='call') if shared.called == 0 else self.after_turn(seat)

    def do_call(self, shared, seat):
        return shared._replace(called=1), seat._replace(step='wake one')

    def after_turn(self, seat):
        return Seat('end' if seat.turns == 1 else 'look', -1, -1, 0, seat.turns - 1)

    # ---- what a step does to the other seats

    def woken(self, seat, others):
        """The seat after it wakes others, and these: one way for each seat that may be woken."""
        if seat.step == 'wake all':
            yield seat._replace(step='look left'), [wake(other) if other.step == 'asleep in line' else other for other in others]
            return
        sleeping = [at for at, other in enumerate(others) if other.step == 'asleep']
        for at in sleeping or [None]:
            yield self.after_turn(seat), [wake(other) if here == at else other for here, other in enumerate(others)]

    def next_states(self, state):
        shared, seats = state
        for at, seat in enumerate(seats):
            others = seats[:at] + seats[at + 1:]
            if seat.step in ('wake all', 'wake one'):
                for after, rest in self.woken(seat, others):
                    yield state_of(shared, [after, *rest])
            elif seat.step in self.steps:
                changed, after = self.steps[seat.step](shared, seat)
                yield state_of(changed, [after, *others])


def wake(seat):
    return seat._replace(step=ASLEEP[seat.step])


def state_of(shared, seats):
    """A state: seats have no order, since each takes the same steps."""
    return shared, tuple(sorted(seats))


def explore(bug=None, first_stuck=False):
    """How many states can be reached, and those that no seat leaves though one isn't at its end: all, or the first that is found."""
    model = Model(bug)
    begin = state_of(Shared(0, 0, 0, 0, 0), [BEGIN] * SEATS)
    seen, todo, stuck = {begin}, [begin], []
    while todo:
        state = todo.pop()
        after = list(model.next_states(state))
        if not after and any(seat.step != 'end' for seat in state[1]):
            stuck.append(state)
            if first_stuck:
                break
        for one in after:
            if one not in seen:
                seen.add(one)
                todo.append(one)
    return len(seen), stuck


def main():
    bug = ' '.join(sys.argv[1:]) or None
    if bug is not None and bug not in BUGS:
        print('bugs:', *(f'{name}: {what}' for name, what in BUGS.items()), sep='\n')
        return 2
    count, stuck = explore(bug)
    print(f'{count} states, {len(stuck)} that nobody leaves')
    for shared, seats in stuck[:1]:
        print(shared, *seats, sep='\n')
    return 1 if stuck else 0


if __name__ == '__main__':
    sys.exit(main())
