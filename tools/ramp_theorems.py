"""Timings and samples with the oracle's choice, and theorems that the definitions choose the same.

A case is a dictionary: timings (start and ramp of each block), sample, and the oracle's answer:
the timing test's number, the two rows chosen and the f32 fraction.
"""

import random
import struct

from named_numbers import named_numbers
from oracle_program import ask
from sequence_theorems import integer, naturals

CASES_IN_A_THEOREM = 10
FRAME = named_numbers("timing")["SAMPLES_PER_JOC_FRAME"]
BLOCKS = named_numbers("rows")["BLOCK_LIMIT"]

CHOICES = """-- Whether the definitions choose rows and fraction as the oracle did.
use Rattle.std.specs.Prelude.{ℕ, Bool, true, false, not, ◌&&◌, List, [], ◌∷◌, eqb, ℤ, Float}
use Rattle.std.specs.Float.{nan, inf, fin}
use Rattle.std.specs.Float.Ieee.{div, of_int}
use Rattle.standard.specs.Calls.{timing_call, ramp_call}
use Rattle.standard.specs.Computed.{computed}
use Rattle.standard.specs.Rows.{eqℤ}
use Rattle.standard.specs.Cases.{same}

pub data Case : Type 0 where
  -- timings, how many blocks, a sample; the timing test's number, from row, to row; the fraction m * 2 ^ e
  chooses : List ℕ → ℕ → ℕ → List ℕ → ℕ → ℤ → Case

-- a float is written with an odd m, so in one way alone
unfoldable pub is_float : Float → ℕ → ℤ → Bool
is_float nan m e = false
is_float (inf s) m e = false
is_float (fin s n d) m e = not s && eqb n m && eqℤ d e

unfoldable pub holds : Case → Bool
holds (chooses ts blocks sample chosen m e) =
    let r = ramp_call ts blocks sample in
    same (r.number ∷ timing_call ts blocks ∷ r.choice.from ∷ r.choice.to ∷ []) (0 ∷ chosen)
    && is_float r.fraction m e

unfoldable pub all_hold : List Case → Bool
all_hold [] = true
all_hold (c ∷ cs) = holds c && all_hold cs

unfoldable pub opened_choices : Unit {0}
unfolding computed same div of_int is_float holds all_hold
opened_choices = tt
"""

HEAD = """-- Timings, and what the oracle chose.
use lib.Dec.{T}
use Rattle.std.specs.Prelude.{[], ◌∷◌, pos, negsuc}
use Rattle.compared.specs.Choices.{chooses, all_hold, opened_choices}
"""


def drawn_timings(draw):
    """Half of them pass the timing test or nearly so; the others are any numbers of 16 bits."""
    blocks = draw.randint(0, BLOCKS)
    if draw.random() < 0.5:
        starts = sorted(draw.randint(0, FRAME) for _ in range(blocks))
        ramps = [max(0, end - start + draw.randint(-1, 1)) for start, end in zip(starts, [*starts[1:], FRAME])]
        return [number for pair in zip(starts, ramps) for number in pair]
    largest = draw.choice([FRAME + 1, 2047, 65535])
    return [draw.choice([0, 1, largest, draw.randint(0, largest)]) for _ in range(2 * blocks)]


def drawn_sample(draw, timings):
    """A sample at the edge of a ramp, or any."""
    edges = [edge for start, ramp in zip(timings[::2], timings[1::2]) for edge in (start, start + ramp)]
    inside = [edge - before for edge in edges for before in (0, 1) if 0 <= edge - before < FRAME]
    return draw.choice(inside) if inside and draw.random() < 0.7 else draw.randrange(FRAME)


def cases(seed, count):
    draw = random.Random(seed)
    found = [{"timings": drawn_timings(draw)} for _ in range(count)]
    for case in found:
        case["sample"] = drawn_sample(draw, case["timings"])
    lines = [[len(case["timings"]) // 2, *case["timings"], case["sample"]] for case in found]
    given = "".join(" ".join(map(str, line)) + "\n" for line in lines)
    answers = ask("timing", given=given.encode()).decode().splitlines()
    for case, answer in zip(found, answers, strict=True):
        number, come_from, go_to, bits = map(int, answer.split())
        case["chosen"] = [number, come_from, go_to]
        case["fraction"] = odd_parts(bits)
    return found


def odd_parts(bits):
    """An f32 as [m, e], of value m * 2 ^ e with an odd m; zero is [0, 0]."""
    numerator, denominator = struct.unpack("f", struct.pack("I", bits))[0].as_integer_ratio()
    # A fraction is at most 1, so its exponent stands in the denominator.
    return [numerator, 1 - denominator.bit_length()]


def chooses(case):
    blocks = len(case["timings"]) // 2
    mantissa, exponent = case["fraction"]
    given = f"{naturals(case['timings'])} {blocks} {case['sample']}"
    return f"chooses {given} {naturals(case['chosen'])} {mantissa} ({integer(exponent)})"


def modules(found):
    """The text of each module: theorems of some cases each."""
    text = HEAD
    for number, first in enumerate(range(0, len(found), CASES_IN_A_THEOREM)):
        lines = "".join(f"    {chooses(case)} ∷\n" for case in found[first : first + CASES_IN_A_THEOREM])
        text += f"\nramps{number} : T (all_hold (\n{lines}    []))\nunfolding opened_choices\nramps{number} = tt\n"
    return {"Choices": CHOICES, "Ramps": text}
