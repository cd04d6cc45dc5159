"""Sequences of payloads with the oracle's answers, and theorems that the definitions say the same.

A record is a dictionary: its sort (ok, no, start, reset or gap), its payload, the rows retained before it,
and lists of the oracle's numbers.
"""

from named_numbers import named_numbers
from oracle_program import ask

# The numbers of a row before its mark.
COMPARED = named_numbers("rows")["MARK"]
# The oracle's lines after an `ok` whose numbers are compared.
ROWS = ["start_row", "block_row", "retained_row"]
NUMBERS_OF_OK = ["timings", *ROWS]
# The call that each record without a payload stands for, by its name in the definitions.
CALLS = {"start": "programme_start", "reset": "reset", "gap": "gap"}

AGREEMENT = """-- Whether the definitions say to payloads what the oracle said.
use Rattle.std.specs.Prelude.{ℕ, zero, suc, ◌*◌, Bool, true, ◌&&◌, List, [], ◌∷◌, ◌++◌, ℤ, pos, get_or, take, drop, replicate}
use Rattle.standard.specs.Numbers.{row_width, retained_head, retained_length, mark_at}
use Rattle.standard.specs.Calls.{Lent, Done, Kept, decode}
use Rattle.standard.specs.Journal.{fresh_tables}
use Rattle.standard.specs.Computed.{computed}
use Rattle.standard.specs.Rows.{eqℤ}
use Rattle.standard.specs.Cases.{same, sameℤ, answer_numbers}

-- what an acceptance says: objects and blocks; timings; start rows and block rows without their marks
pub record Frame : Type 0 where
  pub objects : ℕ
  pub blocks : ℕ
  pub timings : List ℕ
  pub start : List ℤ
  pub updates : List ℤ

pub data Verdict : Type 0 where
  refuses : ℕ → ℕ → ℕ → ℕ → Verdict  -- number, context, place, missing bits
  accepts : Frame → Verdict

pub data Said : Type 0 where
  -- with how many rows are retained afterwards, and which: a call on the retained table alone, or a payload
  calls : (List ℤ → Kept) → ℕ → List ℤ → Said
  says : List ℕ → Verdict → ℕ → List ℤ → Said

-- the first n rows of a table; a mark stands last in its row
unfoldable pub unmarked : ℕ → List ℤ → List ℤ
unmarked zero l = []
unmarked (suc n) l = take mark_at l ++ unmarked n (drop row_width l)

-- number, context, place, objects, blocks, missing bits; the unsettled count, which is not the oracle's, is left out
unfoldable pub numbers_of : Done → List ℕ
numbers_of d =
    let numbers = answer_numbers d.answer in
    take 5 numbers ++ drop 6 numbers

unfoldable pub is_verdict : Verdict → Done → Bool
is_verdict (refuses n c p m) d = same (numbers_of d) (n ∷ c ∷ p ∷ 0 ∷ 0 ∷ m ∷ [])
is_verdict (accepts f) d =
    same (numbers_of d) (0 ∷ 0 ∷ 0 ∷ f.objects ∷ f.blocks ∷ 0 ∷ [])
    && same (take (2 * f.blocks) d.lent.timings) f.timings
    && sameℤ (unmarked f.objects d.lent.start) f.start
    && sameℤ (unmarked (f.objects * f.blocks) d.lent.blocks) f.updates

unfoldable pub retains : ℕ → List ℤ → List ℤ → Bool
retains n rows l = eqℤ (get_or l 0 (pos 0)) (pos n) && sameℤ (unmarked n (drop retained_head l)) rows

-- the frame tables are lent anew; the retained one goes from record to record
abbrev pub lend : List ℤ → Lent
lend l =
    let f = fresh_tables in
    record { retained = l; start = f.start; blocks = f.blocks; timings = f.timings }

unfoldable pub agrees : List ℤ → List Said → Bool
agrees l [] = true
agrees l (calls call n rows ∷ rest) =
    let r = (call l).retained in
    retains n rows r && agrees r rest
agrees l (says s v n rows ∷ rest) =
    let d = decode s (lend l) in
    is_verdict v d && retains n rows d.lent.retained && agrees d.lent.retained rest

-- a programme start, with which each sequence begins, looks at no number
abbrev pub any_numbers : List ℤ
any_numbers = replicate retained_length (pos 7)

unfoldable pub opened : Unit {0}
unfolding computed same sameℤ answer_numbers unmarked numbers_of is_verdict retains agrees
opened = tt
"""

HEAD = """-- Sequences of payloads, and what the oracle said to each.
use lib.Dec.{T}
use Rattle.std.specs.Prelude.{[], ◌∷◌, pos, negsuc}
use Rattle.standard.specs.Calls.{programme_start, reset, gap}
use Rattle.compared.specs.Agreement.{Frame, refuses, accepts, calls, says, agrees, any_numbers, opened}
"""


def payloads_of(journal):
    """The payload of each record; None for a call on the retained table alone."""
    at = 0
    while at < len(journal):
        if journal[at : at + 2] != b"PL":
            yield None
            at += 2
            continue
        end = at + 4 + int.from_bytes(journal[at + 2 : at + 4], "big")
        yield journal[at + 4 : end]
        at = end


def answers_of(text):
    """Each record's answer; the lines that follow an `ok` are its numbers."""
    answers = []
    for line in text.splitlines():
        word, *rest = line.split()
        numbers = [int(number) for number in rest]
        if word in ("no", "ok", *CALLS):
            answers.append({"sort": word, "said": numbers} | {name: [] for name in NUMBERS_OF_OK})
        elif word in NUMBERS_OF_OK:
            answers[-1][word] += numbers
    return answers


def sequences(seed, count):
    """The records of each sequence, a programme start first, with `count` payloads in all."""
    journal = ask("generate", seed, count, "warnings", "short")
    answers = answers_of(ask("journal", given=journal).decode())
    found = []
    for payload, answer in zip(payloads_of(journal), answers, strict=True):
        if answer["sort"] == "start":
            found.append([])
            retained = None
        record = answer | {"payload": payload, "before": retained}
        # What a refusal or a gap leaves is what was there before.
        if answer["sort"] in ("no", "gap"):
            record["retained_row"] = list(retained)
        retained = record["retained_row"]
        found[-1].append(record)
    return found


def naturals(numbers):
    return "(" + "".join(f"{number} ∷ " for number in numbers) + "[])"


def integer(number):
    return f"pos {number}" if number >= 0 else f"negsuc {-number - 1}"


def integers(numbers):
    return naturals(map(integer, numbers))


def verdict(record):
    if record["sort"] == "no":
        return "refuses " + " ".join(map(str, record["said"]))
    objects, blocks = record["said"]
    rows = f"start = {integers(record['start_row'])}; updates = {integers(record['block_row'])}"
    numbers = f"objects = {objects}; blocks = {blocks}; timings = {naturals(record['timings'])}"
    return f"accepts (record {{ {numbers}; {rows} }})"


def said(record):
    """A record as a `Said`."""
    retained = record["retained_row"]
    rows = f"{len(retained) // COMPARED} {integers(retained)}"
    if record["sort"] in CALLS:
        return f"calls {CALLS[record['sort']]} {rows}"
    return f"says {naturals(record['payload'])} ({verdict(record)}) {rows}"


def theorem(number, records):
    lines = "".join(f"    {said(record)} ∷\n" for record in records)
    name = f"sequence{number}"
    return f"\n{name} : T (agrees any_numbers (\n{lines}    []))\nunfolding opened\n{name} = tt\n"


def modules(found):
    """The text of each module: some sequences in each, a theorem for each sequence."""
    texts = {"Agreement": AGREEMENT}
    for number, records in enumerate(found):
        name = f"Sequences{number // 20}"
        texts[name] = texts.get(name, HEAD) + theorem(number, records)
    return texts
