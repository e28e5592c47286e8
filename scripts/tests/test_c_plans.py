"""Holds the plans of the C library to a model on drawn events, and fetches drawn blobs from drawn holders by them.

The plans are always the same; COUNT in the environment is how many there are of each kind (400). The model has sets of chunks as numbers of so many bits, and says
of each answer whether the header allows it. A fetch is an event loop over a clock of its own, whose holders are true, slow, false, dead or fail now and then: each
ends after at most as many requests as the header's rules allow, with all chunks that some true holder has.
"""
import ctypes
import os
import random
import unittest

from cases import LIBRARY, Case, each

if not os.path.exists(LIBRARY):
    raise unittest.SkipTest(f"{LIBRARY} was not built")
calls, COUNT, PARTS = ctypes.CDLL(LIBRARY), int(os.environ.get("COUNT", 400)), 4
u32, u64, size = ctypes.c_uint32, ctypes.c_uint64, ctypes.c_size_t
NOTHING, FETCH, WAIT = range(3)
OVER, LATER, CUT = range(3)
NO_GROUP, NO_HANDLE, NO_HOLDER, NO_REQUEST = 803, 1202, 1214, 1215
REQUEST = 1024
MASK = 2**64 - 1


class Policy(ctypes.Structure):
    _fields_ = [("faults", u32), ("pause", u32), ("longest", u32), ("patience", u32)]


class Next(ctypes.Structure):
    _fields_ = [("kind", u32), ("first", u64), ("count", u64), ("until", u64)]


class Plan:
    """A plan of the library. Each call answers its status, or what it tells."""

    def __init__(self, library, total, policy):
        self.calls, self.at = library, ctypes.c_void_p()
        assert self.status("new", u64(total), ctypes.byref(policy), before=True) == 0

    def status(self, name, *words, before=False):
        handle = ctypes.byref(self.at)
        return getattr(self.calls, "bw_plan_" + name)(*words, handle) if before else getattr(self.calls, "bw_plan_" + name)(handle, *words)

    def told(self, kind, name, *words):
        it = kind()
        return self.status(name, *words, ctypes.byref(it)) or it

    def free(self):
        self.calls.bw_free(ctypes.byref(self.at))


def bits(first, count):
    return ((1 << count) - 1) << first


class Holder:
    def __init__(self):
        self.refused = self.absent = self.asked = self.in_row = self.later = self.rank = 0


class Model:
    def __init__(self, chunks, policy):
        self.policy, self.chunks, self.end = policy, chunks, chunks
        self.groups, self.since = -(-chunks // 64), [0] * -(-chunks // REQUEST)
        self.open, self.holders = bits(0, chunks), []

    def is_left_out(self, it):
        return it.in_row >= self.policy.faults

    def may_have(self, it):
        return ~(it.refused | it.absent)

    def wanted(self, it):
        return self.open & self.may_have(it) & ~it.asked & bits(0, min(self.end, self.chunks))

    def ready(self, it, now, overtakes):
        taken = better = 0
        for other in self.holders:
            taken |= other.asked
            if other.rank < it.rank and not self.is_left_out(other) and other.later <= now:
                better |= self.may_have(other)
        if overtakes:
            for unit, since in enumerate(self.since):
                if now - since >= self.policy.patience:
                    taken &= ~bits(REQUEST * unit, REQUEST)
        return self.wanted(it) & ~taken & ~better

    def ask(self, number, now, answer):
        """Whether the answer is right; then what it names is under way."""
        it = self.holders[number]
        if self.is_left_out(it) or not self.wanted(it):
            return answer.kind == NOTHING
        if now < it.later:
            return answer.kind == WAIT and answer.until == it.later
        ready = self.ready(it, now, False) or self.ready(it, now, True)
        if not ready:
            return answer.kind == WAIT and answer.until > now
        first, count = answer.first, answer.count
        asked = bits(first, count)
        end = first + count
        if answer.kind != FETCH or not 0 < count <= REQUEST or asked & ~ready:
            return False
        if first // REQUEST != (end - 1) // REQUEST or end % REQUEST and ready >> end & 1:
            return False
        it.asked |= asked
        self.since[first // REQUEST] = now
        return True

    def kept(self, number, group, mask):
        it, mine = self.holders[number], (mask << 64 * group) & self.open
        self.open &= ~mine
        if mine and not self.is_left_out(it):
            it.in_row = 0
        return mine >> 64 * group

    def ended(self, number, first, count, outcome, later, now):
        it, asked = self.holders[number], bits(first, count)
        if not asked or asked & ~it.asked:
            return NO_REQUEST
        failed = not (asked & ~self.open or asked & (it.refused | it.absent) or outcome == CUT)
        it.asked &= ~asked
        if failed and not self.is_left_out(it):
            it.in_row += 1
        pause = 0
        if outcome == LATER:
            pause = min(later, self.policy.longest)
        elif outcome != CUT and failed:
            pause = min(self.policy.pause * 2 ** (it.in_row - 1), self.policy.longest)
        it.later = max(it.later, now + pause)
        return failed


def chunks_of(total):
    return max(1, -(-total // 1024))


def drawn_mask(rng):
    return rng.choice((MASK, 0, 1 << rng.randrange(64), rng.getrandbits(64), rng.getrandbits(64) | rng.getrandbits(64)))


def drawn_range(rng, it, chunks):
    """A range that the holder is asked for, or something near it."""
    if not it.asked or rng.randrange(8) == 0:
        return rng.randrange(chunks + 2), rng.randrange(4)
    first = (it.asked & -it.asked).bit_length() - 1
    rest = it.asked >> first
    count = (~rest & rest + 1).bit_length() - 1
    if rng.randrange(4) == 0:
        first, count = first + rng.randrange(count), rng.randrange(count + 2)
    return first, count


def drawn_events(library, rng):
    policy = Policy(rng.randrange(1, 6), rng.choice((0, 10, 100)), rng.choice((5, 150, 1000)), rng.choice((0, 50, 400)))
    total = rng.choice((0, 1, 1024, rng.randrange(70000), rng.randrange(3000000)))
    chunks = chunks_of(total)
    plan, model, now = Plan(library, total, policy), Model(chunks, policy), 0
    for _ in range(rng.randrange(20, 250)):
        now += rng.choice((0, 0, 1, 30, 200))
        number, group = rng.randrange(len(model.holders) + 1), rng.randrange(model.groups + (rng.randrange(10) == 0))
        is_there, mask = number < len(model.holders), drawn_mask(rng)
        it = model.holders[number] if is_there else None
        place = NO_HOLDER if not is_there else NO_GROUP if group >= model.groups else 0
        way = rng.choice("aaaaaaaakkkkkreeeeelhfmx")
        if way == "a":
            answer = plan.told(Next, "ask", size(number), u64(now))
            assert model.ask(number, now, answer) if is_there else answer == NO_HOLDER
        elif way == "k":
            taken = plan.told(u64, "kept", size(number), u64(group), u64(mask))
            assert taken == place if place else taken.value == model.kept(number, group, mask)
        elif way in "rlh":
            assert plan.status({"r": "refused", "l": "lacks", "h": "has"}[way], size(number), u64(group), u64(mask)) == place
            if not place:
                mine = mask << 64 * group
                if way == "r":
                    it.refused |= mine
                else:
                    it.absent = it.absent | mine if way == "l" else it.absent & ~mine
        elif way == "e":
            first, count = drawn_range(rng, it, chunks) if is_there else (0, 1)
            outcome, later = rng.choice((OVER, OVER, OVER, LATER, CUT, 9)), rng.choice((0, 70, 2**64 - 1))
            failed = plan.told(u32, "ended", size(number), u64(first), u64(count), u32(outcome), u64(later), u64(now))
            wanted = model.ended(number, first, count, outcome, later, now) if is_there else NO_HOLDER
            assert failed == wanted if isinstance(failed, int) else failed.value == wanted
        elif way == "f":
            assert plan.status("forgive", size(number)) == (0 if is_there else NO_HOLDER)
            if is_there:
                it.in_row = 0
        elif way == "m":
            rank = rng.randrange(3)
            assert plan.status("rank", size(number), u32(rank)) == (0 if is_there else NO_HOLDER)
            if is_there:
                it.rank = rank
        elif rng.randrange(3) == 0:
            model.end = rng.choice((chunks, rng.randrange(chunks + 1), 2**64 - 1))
            assert plan.status("limit", u64(model.end)) == 0
        else:
            assert plan.told(size, "add_holder").value == len(model.holders)
            model.holders.append(Holder())
        assert plan.told(u32, "is_done").value == (model.open == 0)
        lacking = plan.told(u64, "lacking", u64(group))
        assert lacking == NO_GROUP if group >= model.groups else lacking.value == model.open >> 64 * group & MASK
        left_out = plan.told(u32, "is_left_out", size(number))
        assert left_out.value == model.is_left_out(model.holders[number]) if number < len(model.holders) else left_out == NO_HOLDER
    plan.free()
    assert plan.status("limit", u64(0)) == NO_HANDLE


class Mirror:
    """A holder of a fetch: it has these chunks, of which some are false, answers after so long, and fails so many of 100 requests."""

    def __init__(self, rng, chunks):
        self.is_true = rng.randrange(3) == 0
        self.has = bits(0, chunks) if self.is_true or rng.randrange(3) else rng.getrandbits(chunks)
        self.false = 0 if self.is_true else rng.choice((0, self.has, rng.getrandbits(chunks) & rng.getrandbits(chunks) & self.has))
        self.delay = rng.choice((1, 20, 700))
        self.fails = 0 if self.is_true else rng.choice((0, 0, 30, 66, 100))
        self.ends = 0


def drawn_fetch(library, rng):
    """An event loop over drawn holders, with up to two requests under way at each."""
    policy = Policy(rng.randrange(1, 6), 100, 1000, 300)
    total = rng.randrange(1, 4000000)
    chunks = chunks_of(total)
    plan, mirrors, under_way, now = Plan(library, total, policy), [Mirror(rng, chunks) for _ in range(rng.randrange(1, 6))], [], 0
    taken = 0
    for number in range(len(mirrors)):
        assert plan.told(size, "add_holder").value == number
    while True:
        moments = []
        for number, it in enumerate(mirrors):
            while sum(at[1] == number for at in under_way) < 2:
                answer = plan.told(Next, "ask", size(number), u64(now))
                if answer.kind != FETCH:
                    moments += [answer.until] * (answer.kind == WAIT)
                    break
                under_way.append((now + it.delay, number, answer.first, answer.count))
        if not moments and not under_way:
            break
        now = min(moments + [at[0] for at in under_way])
        for at in [at for at in under_way if at[0] <= now]:
            under_way.remove(at)
            _, number, first, count = at
            it, fails = mirrors[number], rng.randrange(100) < mirrors[number].fails
            for group in range(first // 64, (first + count - 1) // 64 + 1) if not fails else ():
                asked = bits(first, count) >> 64 * group & MASK
                has, false = it.has >> 64 * group & asked, it.false >> 64 * group & asked
                assert not false or plan.status("refused", size(number), u64(group), u64(false)) == 0
                assert has == asked or plan.status("lacks", size(number), u64(group), u64(asked & ~has)) == 0
                mine = plan.told(u64, "kept", size(number), u64(group), u64(has & ~false)).value << 64 * group
                assert not mine & taken
                taken |= mine
            failed = plan.told(u32, "ended", size(number), u64(first), u64(count), u32(rng.choice((OVER, OVER, LATER)) if fails else OVER), u64(50), u64(now))
            assert failed.value <= fails
            it.ends += 1
    left_out = [plan.told(u32, "is_left_out", size(number)).value for number in range(len(mirrors))]
    assert not any(left and it.fails == 0 for left, it in zip(left_out, mirrors))
    for left, it in zip(left_out, mirrors):
        assert left or not it.has & ~it.false & ~taken
    assert plan.told(u32, "is_done").value == (taken == bits(0, chunks))
    assert sum(it.ends for it in mirrors) <= policy.faults * chunks + len(mirrors) * (chunks + policy.faults)
    plan.free()
    return taken == bits(0, chunks)


@each((f"part {part}", part) for part in range(PARTS))
class Plans(Case):
    def tried(self, part):
        whole = 0
        for number in range(part, COUNT, PARTS):
            with self.subTest(f"events {number}"):
                drawn_events(calls, random.Random(number))
            with self.subTest(f"fetch {number}"):
                whole += drawn_fetch(calls, random.Random(number))
        self.assertGreater(whole, 0, "no fetch got the whole blob")
