"""A night of one line: it is rung at 20 Hz, give or take 10 %, some of the calls are answered, and it calls itself."""
from contacts import MS, Contact, Story, bounced, call, digits_of_a_call, outcome, table_of

SECOND = 1000 * MS
RINGINGS, ANSWERED, CALLS = 200, 40, 60
HOOK_BOUNCE = 5 * MS
TIMEOUT = 20 * SECOND


def burst(chance, at, lasts, period, makes):
    """Returns the changes of a burst of ringing: a make in each period."""
    changes = []
    for begin in range(at, at + lasts - period, period):
        changes += [begin, begin + makes + chance.randint(-MS // 2, MS // 2)]
    return changes


def bursts(chance, at):
    """Returns the changes of one to six bursts of 2 s with pauses of 4 s, and where the last one begins."""
    period = round(50 * MS / chance.uniform(0.9, 1.1))
    makes = round(period * chance.uniform(18, 32) / 50)
    changes, count = [], chance.randint(1, 6)
    for _ in range(count):
        begins = at
        changes += burst(chance, begins, 2 * SECOND, period, makes)
        at += 6 * SECOND
    return changes, begins


def rung(chance, at):
    """Returns the changes of a ringing that nobody answers. The caller may hang up in the middle of a burst."""
    changes, begins = bursts(chance, at)
    ends = begins + chance.choice((2_000, chance.randint(300, 2_000))) * MS
    kept = [it for it in changes if it < ends]
    return kept[:len(kept) // 2 * 2]


def answered(chance, at):
    """Returns the changes of a ringing that is answered within its last burst or the pause after it, those of the
    answer with its bounces, and when the line is answered and when it hangs up."""
    changes, begins = bursts(chance, at)
    lifts = begins + chance.choice((chance.randint(500, 1_900), chance.randint(2_100, 5_900))) * MS
    ringing = [it for it in changes if it < lifts]
    talks = chance.choice((chance.randint(5_000, 19_700), chance.randint(20_300, 60_000))) * MS
    if len(ringing) % 2:
        lifts = ringing.pop()
    return ringing, bounced(chance, [lifts], HOOK_BOUNCE), [lifts, lifts + talks]


def dialled(chance, at, digits):
    """Returns the changes of a call with which the line calls: as they are, and with bounces of the hook and the dial.
    Where the number is complete the line may talk a minute."""
    made = call(chance, at, digits)
    if "ABANDONED" not in outcome(digits):
        made[-1] += chance.choice((0, chance.randint(5_000, 60_000))) * MS
    hook, dial = [made[:1], made[-1:]], made[1:-1]
    return made, bounced(chance, hook[0], HOOK_BOUNCE) + bounced(chance, dial) + bounced(chance, hook[1], HOOK_BOUNCE)


class Night:
    """What has been recorded up to now, what of it are calls, and their outcomes."""

    def __init__(self, has_answers):
        self.has_answers = has_answers
        self.recorded, self.clean, self.outcomes = [], [], []
        self.at = 5 * SECOND

    def ring(self, chance):
        self.recorded += rung(chance, self.at)
        self.at = self.recorded[-1] + chance.randint(5_000, 15_000) * MS

    def answer(self, chance):
        ringing, lifting, talk = answered(chance, self.at)
        self.recorded += ringing + lifting + bounced(chance, talk[1:], HOOK_BOUNCE)
        if self.has_answers:
            self.clean += talk
            self.outcomes.append("REFUSED " + ("TIMEDOUT 0" if talk[1] - talk[0] >= TIMEOUT else "ABANDONED 0"))
        self.at = talk[1] + chance.randint(1_000, 15_000) * MS

    def call(self, chance):
        digits = digits_of_a_call(chance)
        made, recorded = dialled(chance, self.at, digits)
        self.recorded += recorded
        self.clean += made
        self.outcomes.append(outcome(digits))
        self.at = made[-1] + chance.randint(1_000, 15_000) * MS


def story_of_a_night(chance, has_answers):
    """Returns a night, of which the answered calls are attempts without a digit, or nothing."""
    events = [Night.ring] * (RINGINGS - ANSWERED) + [Night.answer] * ANSWERED + [Night.call] * CALLS
    chance.shuffle(events)
    night = Night(has_answers)
    for event in events:
        event(night, chance)
    return Story(Contact(night.clean, night.at), Contact(night.recorded, night.at), table_of({}), night.outcomes)
