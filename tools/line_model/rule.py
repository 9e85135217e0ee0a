"""The rule for the line with time as an input, as the crate `ym_timing` has it, name by name.

`Timing` is the decision core, without IO; `Timed` is a port that drives it. Times of the core are
milliseconds.
"""

from dataclasses import dataclass, replace

from ends import ACK, CAN, CANCEL, CONTROLS, NAK, START, WITHIN
from line import MS, Read, Write
from replies import MOMENT, OPENINGS, WITHIN_MS, Ear, Hold, Sent

FIRST = {"sender": 10_000, "receiver": 3_000}
LONGEST = 60_000
MARGIN = 250
QUIET = {"sender": 1_250, "receiver": 1_000}
APART = 2_000
UNASKED = 2_750
SOON = 1_750
LIKELY = 2_250
FAR = 2_000
HELD_UP = 2_000
FRAGMENT = 64
FULL = 2_048
HALVINGS = 4
PATIENCE = 2_500
SHAKEN = 2


@dataclass
class Heard:
    count: int = 0
    since: int = 0
    last: int = 0
    acked: int = 0
    first: int = 0
    second: int = 0
    answers: int = 0
    is_ack: bool = False
    is_quiet: bool = False
    waits: int = 0
    is_late: bool = False

    def take(self, byte, now):
        if self.count == 0:
            self.since, self.first, self.is_late = now, byte, 0 < self.waits
        if self.count == 1:
            self.second = byte
        self.count = min(FULL, self.count + 1)
        if byte == ACK or self.count == 1:
            self.acked = now
        self.last, self.is_quiet = now, False

    def take_reply(self, byte, now):
        self.take(byte, now)
        is_ack = byte == ACK
        if is_ack and not self.is_ack:
            self.answers = min(255, self.answers + 1)
        self.is_ack = is_ack

    def is_noise(self):
        return self.count >= FULL and not self.is_quiet


@dataclass
class Out:
    owed: str = "nothing"
    copies: int = 0
    first_at: int = 0
    last_at: int = 0
    gap: int = 0

    def again(self, now):
        gap = max(self.gap, now - self.last_at)
        return Out("several", min(255, self.copies + 1), self.first_at, now, gap)

    def likely(self, now):
        return replace(self.again(now), owed="likely")


@dataclass
class Clearing:
    need: str
    frm: int
    owed: int
    answered_at: int
    end_at: int
    has_brought: bool = False
    heed: str = "open"


class Timing:
    """What an end and its line have said of late, and when."""

    def __init__(self, role):
        self.role = role
        self.slowest, self.trust = 0, "unknown"
        self.out, self.sent, self.led_at, self.heard = Out(), Sent(), 0, Heard()
        self.ear, self.hold, self.echoed, self.front = Ear(), Hold(), 0, None
        self.shaken, self.is_refused, self.vain, self.has_cancel = 0, False, 0, False

    # ---- how long answers take

    def bound(self):
        return self.slowest + self.slowest // 2 + MARGIN

    def doubtful(self, took):
        if self.trust != "sure" or took > self.slowest:
            self.slowest, self.trust = took, "doubtful"

    def sure(self, took):
        if self.trust == "sure" and took < self.slowest:
            self.slowest -= (self.slowest - took) // 4
        else:
            self.slowest, self.trust = took, "sure"

    def last_sample(self, took):
        if self.trust == "doubtful" and took < self.slowest:
            self.slowest -= (self.slowest - took) // 4
        else:
            self.sure(took)

    def wait(self):
        first = FIRST[self.role]
        return first if self.trust == "unknown" else min(LONGEST, max(first, self.bound()))

    def within(self):
        """How long more of a delivery is waited for."""
        is_known = self.role == "sender" and self.trust == "sure"
        return min(WITHIN_MS, self.bound()) if is_known else WITHIN_MS

    # ---- waits and what comes

    def is_early(self, kind):
        return kind != WITHIN and self.role == "sender" and self.part() < self.wait()

    def part(self):
        """How long behind its start the part of a wait is over that it is in."""
        return (self.heard.waits + 1) * PATIENCE

    def until(self, kind, start):
        if kind == WITHIN:
            end = start + self.within()
        else:
            end = start + (self.part() if self.is_early(kind) else self.wait())
        if not self.hold.is_held:
            return end
        if self.sent.kind in ("end", "data"):
            return self.hold.at + self.hold.moment()
        return max(end, self.hold.at + WITHIN_MS)

    def expired(self, kind, now):
        """What a read that waited in vain comes to: "ack", "again" or "quiet"."""
        if self.sent.kind in ("end", "data") and self.hold.is_held:
            self.hold.is_held = False
            self.heard.take_reply(ACK, now)
            return "ack"
        is_early = self.is_early(kind)
        self.heard.is_quiet, self.heard.waits = not is_early, min(255, self.heard.waits + 1)
        if is_early:
            return "again"
        self.hold.is_held = False
        return "quiet"

    def is_start(self, byte):
        """Whether it asks for the data behind a block 0 that came twice."""
        is_acked = 0 < self.heard.answers and 1 < self.out.copies
        return byte == NAK and is_acked and self.sent.kind in OPENINGS

    def controlled(self, byte, now):
        if self.is_start(byte):
            return bytes([START])
        return self.hold.control(self.sent.kind, byte, self.heard.count == 0, now)

    def byte(self, byte, written, now):
        """What of a byte that came is to be heard."""
        if self.role == "receiver":
            is_echo = not self.heard.count and self.echoed < len(written)
            if is_echo and written[self.echoed] == byte:
                self.echoed += 1
                return b""
            self.heard.take(byte, now)
            return bytes([byte])
        if not self.ear.listen(byte, written, now):
            return b""
        said = self.controlled(byte, now)
        if said:
            self.heard.take_reply(byte, now)
        return said

    # ---- clearing

    def is_taken(self, following):
        if self.role == "sender":
            return self.heard.count > 0 and not self.sent.is_same(following)
        return self.heard.count > 0 and not self.heard.is_noise() and not self.heard.is_quiet

    def was_held_up(self, now):
        heard = self.heard
        return heard.count > 0 and not heard.is_quiet and heard.last + HELD_UP <= now

    def is_new_frame(self):
        return self.front != (self.heard.first, self.heard.second)

    def has_crossed(self):
        """Whether a frame came once more, too soon to answer the last write."""
        is_far = self.trust == "sure" and FAR <= self.slowest
        is_repeat = self.role == "receiver" and not self.is_new_frame()
        return is_far and is_repeat and self.heard.since < self.out.last_at + self.slowest // 2

    def is_put_off(self):
        """Whether a copy is put off, so that not each comes as long behind a peer's ask."""
        is_known = self.role == "sender" and self.sent.kind != "end"
        is_third = self.out.copies in (3, 6, 9) and self.heard.is_late
        return is_known and FAR <= self.slowest and is_third

    def need(self, following, now):
        taken = self.is_taken(following)
        if self.out.owed == "several" and taken and not self.has_crossed():
            return "several"
        if self.heard.is_noise() or self.was_held_up(now):
            return "quiet"
        if self.out.owed == "several" and self.is_put_off():
            return "quiet"
        return "late" if self.out.owed == "late" and taken else "nothing"

    def clearing(self, data, now):
        need = self.need(self.sent.then(data), now)
        is_counted = self.role == "sender" and need in ("late", "several")
        by = self.heard.acked if is_counted else self.heard.last
        frm = now if self.was_held_up(now) else by
        answers, last = self.heard.answers, self.heard.last
        owed = max(0, self.out.copies - max(1, answers))
        heed = "ack" if self.heard.is_ack else "open"
        return Clearing(need, frm, owed, last, now + LONGEST, 1 < answers, heed)

    def stores_for(self):
        """How much later an EOT may be answered than a block."""
        is_stored = self.role == "sender" and self.sent.kind == "eot" and not self.is_refused
        return QUIET["sender"] if is_stored else 0

    def is_answered(self, clearing):
        """Whether each copy of a block was answered."""
        if self.role == "receiver" or clearing.owed:
            return False
        is_apart = clearing.heed != "ack"
        return self.sent.kind == "data" or (self.sent.kind in OPENINGS and is_apart)

    def clear_at(self, clearing):
        """Until when what comes is dropped; 0 where nothing is to be."""
        quiet, frm = QUIET[self.role], clearing.frm
        if self.has_cancel or clearing.need == "nothing":
            return 0
        if clearing.need == "quiet":
            until = frm + quiet
        elif clearing.need == "late":
            soon = min(quiet, self.slowest + 2 * MOMENT) // (1 << self.vain)
            until = frm + max(MOMENT, soon)
        else:
            if self.is_answered(clearing):
                return 0
            apart = frm + self.out.gap * max(1, clearing.owed) + APART
            late = self.out.last_at + self.bound() + self.stores_for()
            late = frm + self.out.gap + APART if self.trust == "unknown" else late
            until = max(frm + quiet, min(apart, late))
        return min(until, clearing.end_at)

    def dropped(self, clearing, byte, written, now):
        is_heard = self.role == "receiver" or self.ear.listen(byte, written, now)
        answers = is_heard and byte == ACK
        if answers or self.role == "receiver" or clearing.need == "quiet":
            clearing.frm = now
        if answers and (clearing.answered_at < now or clearing.heed != "ack"):
            clearing.owed = max(0, clearing.owed - 1)
        if answers:
            clearing.answered_at = now
        clearing.has_brought = True
        if is_heard:
            if clearing.heed == "can" and byte == CAN:
                self.has_cancel = True
            clearing.heed = self.heeds(clearing.heed, byte)

    def heeds(self, heed, byte):
        """How much of CAN CAN was dropped, behind one more byte."""
        is_sender = self.role == "sender"
        if byte == CAN and (heed == "open" or (is_sender and heed in ("ack", "other"))):
            return "can"
        return "ack" if is_sender and byte == ACK else "other"

    # ---- a write

    def took(self, written_at):
        took = max(0, self.heard.since - written_at)
        # no time has passed since the first part of the wait: the clock stands still
        is_still = self.heard.is_late and took <= PATIENCE
        return self.wait() if self.role == "sender" and is_still else took

    def learn(self, clearing, taken):
        is_other = self.role == "sender" or self.is_new_frame()
        if not (taken and is_other and self.out.owed != "nothing"):
            return
        vain = clearing.need in ("late", "several") and not clearing.has_brought
        if self.role == "sender" and vain:
            self.last_sample(self.took(self.out.last_at))
        elif self.out.owed in ("likely", "several"):
            self.doubtful(self.took(self.out.first_at))
        else:
            self.learn_of_one()

    def has_stored(self):
        """Whether an answer says more of the peer than of the line."""
        is_known = self.role == "sender" and self.sent.kind == "eot" and self.trust == "sure"
        acked = max(0, self.hold.at - self.out.first_at)
        return is_known and not self.heard.is_late and acked <= QUIET["sender"]

    def learn_of_one(self):
        if not self.has_stored():
            self.sure(self.took(self.out.first_at))

    def is_prompted(self):
        if self.role == "receiver":
            return self.front is not None and self.heard.count >= FRAGMENT
        if self.trust == "unknown" and self.sent.kind == "empty":
            return False
        soon = SOON if self.trust == "unknown" else max(SOON, UNASKED - self.slowest)
        return self.out.owed in ("one", "late") and self.asked_within(soon)

    def asked_within(self, long):
        took = max(0, self.heard.since - self.led_at)
        return self.heard.count > 0 and not self.heard.waits and took <= long

    def is_late(self):
        is_one = self.role == "sender" and self.out.owed in ("one", "late")
        is_overdue = self.out.last_at + self.bound() <= self.heard.since
        return is_one and self.trust == "sure" and self.heard.count > 0 and is_overdue

    def is_likely(self):
        is_first = self.role == "sender" and self.sent.kind in OPENINGS
        is_one = self.out.owed == "one" and self.trust == "unknown"
        return is_first and is_one and self.asked_within(LIKELY)

    def out_after(self, taken, now):
        if self.out.owed == "nothing" or taken or self.is_prompted():
            return Out("one", 1, now, now, 0)
        if self.is_late():
            return Out("late", 1, now, now, 0)
        return self.out.likely(now) if self.is_likely() else self.out.again(now)

    def shaken_after(self, repeat, clearing):
        is_refusal = self.sent.kind == "eot" and self.heard.first == NAK and not self.is_refused
        if repeat:
            return self.shaken if self.role == "receiver" or is_refusal else SHAKEN
        left = max(0, self.shaken - (self.sent.kind == "data"))
        cleared = clearing.need != "nothing" and self.out.owed != "one"
        return max(1, left) if cleared else left

    def is_refused_after(self, repeat):
        if self.role == "receiver" or self.sent.kind != "eot":
            return self.is_refused
        return repeat and (self.is_refused or self.heard.first == NAK)

    def is_doubted(self, following, taken, shaken):
        """Whether the first ACK of this may be that of a copy of the frame before."""
        if self.out.owed == "likely":
            return taken
        is_opening = self.sent.kind in OPENINGS
        is_first = is_opening and following.kind == "data"
        is_last = is_opening and following.kind == "eot"
        is_unsafe = bool(shaken) and (following.kind == "empty" or is_last)
        return is_unsafe or (self.out.owed == "several" and taken and is_first)

    def wrote(self, data, clearing, now):
        following = self.sent.then(data)
        repeat, taken = self.sent.is_same(following), self.is_taken(following)
        shaken, refused = self.shaken_after(repeat, clearing), self.is_refused_after(repeat)
        doubted = self.is_doubted(following, taken, shaken)
        out = self.out_after(taken, now)
        self.learn(clearing, taken)
        if clearing.need in ("late", "several"):
            self.vain = 0 if clearing.has_brought else min(HALVINGS, self.vain + 1)
        self.hold.wrote(following.kind, repeat, doubted, now)
        if self.role == "receiver" and taken:
            self.front = (self.heard.first, self.heard.second)
        self.led_at = self.heard.last if self.heard.count else now
        self.out, self.sent, self.shaken, self.is_refused = out, following, shaken, refused
        self.heard, self.echoed, self.ear.others = Heard(), 0, 0


def cancels(data):
    """Whether CAN CAN stands among the control bytes of what came."""
    return CANCEL in bytes(byte for byte in data if byte in CONTROLS)


class Clock:
    """A clock that never runs backwards, over one that may, or that stands still."""

    def __init__(self):
        self.at, self.behind = 0, 0

    def read(self, now):
        self.behind = max(self.behind, self.at - now)
        self.at = now + self.behind
        return self.at

    def waited(self, until, now):
        """A read waited until then, whatever the clock below says."""
        self.read(now)
        self.behind += max(0, until - self.at)
        self.at = max(self.at, until)


class Timed:
    """A port that drives the core over a line."""

    def __init__(self, role, line):
        self.core, self.clock, self.line, self.written = Timing(role), Clock(), line, b""

    def told(self):
        return self.line.now // MS

    def now(self):
        return self.clock.read(self.told())

    def heard_of(self, data):
        now, heard = self.now(), b""
        for byte in data:
            heard += self.core.byte(byte, self.written, now)
        return CANCEL if self.core.role == "sender" and cancels(heard) else heard

    def read(self, kind, room):
        core, start = self.core, self.now()
        if core.has_cancel:
            core.has_cancel = False
            return CANCEL
        while True:
            until = core.until(kind, start)
            got = yield Read(max(0, until - self.now()) * MS, room)
            if got is not None:
                heard = self.heard_of(got)
                if heard:
                    return heard
                continue
            self.clock.waited(until, self.told())
            vain = core.expired(kind, self.now())
            if vain != "again":
                return bytes([ACK]) if vain == "ack" else None

    def write(self, data):
        core = self.core
        clearing = core.clearing(data, self.now())
        while True:
            until = core.clear_at(clearing)
            if until <= self.now():
                break
            got = yield Read((until - self.now()) * MS)
            if got is None:
                self.clock.waited(until, self.told())
                break
            for byte in got:
                core.dropped(clearing, byte, self.written, self.now())
        core.wrote(data, clearing, self.now())
        self.written = data
        yield Write(data)


class Still(Timed):
    """The same, with a clock that stands still."""

    def told(self):
        return 5_000


class Back(Timed):
    """The same, with a clock that jumps back by four seconds every seven."""

    def told(self):
        return 100_000 + self.line.now // MS - self.line.now // (7_000 * MS) * 4_000
