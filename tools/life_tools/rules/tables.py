"""The rules of policies as tables: the checks that each command meets, in their order, and what an accepted command changes and
books.

docs/reference/rules.md has the same tables. `policies.py` applies them to one policy at a time, and `journal/policy_columns.py`
to many policies at once; so each function here takes numbers as well as columns of numbers, and uses no `and`, `or`, `not` or
`if` on them. `of` is a policy, or the columns of policies. Days are numbers, plans and statuses are codes, amounts are in cents.
"""
from __future__ import annotations

from typing import Any, Callable, NamedTuple

from life_tools.common.formats import MOST_CENTS, MOST_REINSTATEMENT_CENTS, PLANS, STATUSES

LAST_AGE = 131
OLDEST_AT_ISSUE = 129
LEAST_YEARS = 2
# the days of grace after a premium is due, the days before the due day from which it may be paid, and the number of anniversaries
# after the last paid one up to which a lapsed policy can be reinstated
GRACE_DAYS = 31
EARLY_DAYS = 90
REINSTATEMENT_ANNIVERSARIES = 3
# the due day if no premium is due: a day later than every day that a policy has
NEVER = 2**31 - 1

PLAN_CODES = {plan: code for code, plan in PLANS.items()}
TERM, WHOLE, ENDOWMENT, LIMITED = PLANS
# the codes of the statuses, as in a checkpoint
CODE_OF_STATUS = {status: code for code, status in enumerate(STATUSES, 1)}
INFORCE, LAPSED, CLAIMED, MATURED, EXPIRED, SETTLED, MADE_PAIDUP = CODE_OF_STATUS.values()

# a policy or the columns of policies; and a number, a truth, or a column of these
Of = Any
Value = Any
Either = Callable[[Value, Value, Value], Value]


# --- the terms of a policy ---

def most_cents(kind: str) -> int:
    """Returns the greatest amount that a command of this kind may have."""
    return MOST_REINSTATEMENT_CENTS if kind == "reinstate" else MOST_CENTS


def terms_fit(plan: Value, age: Value, years: Value) -> Value:
    """Returns whether an issue may have this age and these years, given one of the plans."""
    is_whole = plan == WHOLE
    years_right = (is_whole & (years == 0)) | ((plan != WHOLE) & (years >= LEAST_YEARS) & (years <= LAST_AGE - age))
    return (age <= OLDEST_AT_ISSUE) & years_right


def cover_of(plan: Value, age: Value, years: Value, either: Either) -> tuple[Value, Value]:
    """Returns the years of cover and the number of yearly premiums. `either(truth, one, other)` chooses between two values."""
    to_end = LAST_AGE - age
    return either((plan == TERM) | (plan == ENDOWMENT), years, to_end), either(plan == WHOLE, to_end, years)


# --- a policy's days and premiums ---

def due_of(of: Of) -> Value:
    """Returns the day on which the next premium is due, or NEVER if all are paid or the policy is paid up."""
    is_owed = (of.status != MADE_PAIDUP) & (of.paid < of.payments)
    return of.either(is_owed, of.anniversary(of.either(is_owed, of.paid, 0)), NEVER)


def missed_by(of: Of, day: Value) -> Value:
    """Returns how many unpaid premiums fell due up to and including the day."""
    fell_due = of.years_since_issue(day) + 1
    fell_due = of.either(fell_due < of.payments, fell_due, of.payments)
    return of.either(fell_due > of.paid, fell_due - of.paid, 0)


def is_insured(of: Of) -> Value:
    return (of.status == INFORCE) | (of.status == MADE_PAIDUP)


def is_past_grace(of: Of, day: Value) -> Value:
    # the days of grace are taken from the day, since NEVER has no later day
    return day - GRACE_DAYS > of.due


def reinstatement_limit(of: Of) -> Value:
    """Returns the last day on which a lapsed policy can be reinstated, if its cover has not ended."""
    return of.anniversary(of.paid + REINSTATEMENT_ANNIVERSARIES)


# --- the checks ---

class Check(NamedTuple):
    """A reason to refuse a command: its word; whether it applies, by the policy, the line's day and its amount; and by the policy
    and the day the value that stands after the word, and what this value is."""

    reason: str
    applies: Callable[[Of, Value, Value], Value]
    value: Callable[[Of, Value], Value] | None = None
    shown_as: str = "day"


def status_other_than(*right: int) -> Check:
    def applies(of: Of, day: Value, amount: Value) -> Value:
        wrong = of.status != right[0]
        for code in right[1:]:
            wrong = wrong & (of.status != code)
        return wrong
    return Check("wrongstatus", applies, lambda of, day: of.status, "status")


LAST_DAY = Check("beforelast", lambda of, day, amount: day < of.last, lambda of, day: of.last)
TERM_OVER = Check("termover", lambda of, day, amount: day >= of.end, lambda of, day: of.end)
NOTHING_DUE = Check("nothingdue", lambda of, day, amount: of.due == NEVER)
TOO_EARLY = Check("tooearly", lambda of, day, amount: day < of.due - EARLY_DAYS, lambda of, day: of.due)
GRACE_OVER = Check("graceover", lambda of, day, amount: is_past_grace(of, day), lambda of, day: of.due)
PREMIUM = Check("wrongamount", lambda of, day, amount: amount != of.premium, lambda of, day: of.premium, "cents")
REDUCTION = Check("notareduction", lambda of, day, amount: amount >= of.amount, lambda of, day: of.amount, "cents")
ARREARS = Check("notinarrears", lambda of, day, amount: day - GRACE_DAYS <= of.due, lambda of, day: of.due)
TOO_LATE = Check("toolate", lambda of, day, amount: day > reinstatement_limit(of), lambda of, day: reinstatement_limit(of))
SUM = Check("wrongamount", lambda of, day, amount: amount != missed_by(of, day) * of.premium,
            lambda of, day: missed_by(of, day) * of.premium, "cents")
OUTSTANDING = Check("oversettled", lambda of, day, amount: amount > of.outstanding, lambda of, day: of.outstanding, "cents")
NOT_ENDED = Check("notmatured", lambda of, day, amount: day < of.end, lambda of, day: of.end)
IN_FORCE = status_other_than(INFORCE)
INSURED = status_other_than(INFORCE, MADE_PAIDUP)

# the checks of each command on a policy, in their order; the first one that applies is the answer
CHECKS = {
    "premium": (LAST_DAY, IN_FORCE, TERM_OVER, NOTHING_DUE, TOO_EARLY, GRACE_OVER, PREMIUM),
    "alter": (LAST_DAY, IN_FORCE, TERM_OVER, GRACE_OVER, REDUCTION),
    "lapse": (LAST_DAY, IN_FORCE, NOTHING_DUE, ARREARS),
    "reinstate": (LAST_DAY, status_other_than(LAPSED), TERM_OVER, TOO_LATE, SUM),
    "claim": (LAST_DAY, INSURED, TERM_OVER, GRACE_OVER),
    "settle": (LAST_DAY, status_other_than(CLAIMED, MATURED), OUTSTANDING),
    "mature": (LAST_DAY, INSURED, GRACE_OVER, NOT_ENDED),
    "paidup": (LAST_DAY, IN_FORCE, TERM_OVER, NOTHING_DUE, GRACE_OVER, REDUCTION),
}


# --- what an accepted command changes and books ---

class Line(NamedTuple):
    """The day, amount and premium of a command, or columns of them."""

    day: Value
    amount: Value
    premium: Value


# Whichever field of the policy is not named stays as it is; the policy's last day becomes the line's.
CHANGES: dict[str, Callable[[Of, Line], dict[str, Value]]] = {
    "premium": lambda of, line: {"paid": of.paid + 1},
    "alter": lambda of, line: {"amount": line.amount, "premium": line.premium},
    "lapse": lambda of, line: {"status": LAPSED},
    "reinstate": lambda of, line: {"status": INFORCE, "paid": of.paid + missed_by(of, line.day)},
    "claim": lambda of, line: {"status": CLAIMED, "outstanding": of.amount},
    "settle": lambda of, line: {"status": of.either(line.amount == of.outstanding, SETTLED, of.status),
                                "outstanding": of.outstanding - line.amount},
    "mature": lambda of, line: {"status": of.either(of.plan == TERM, EXPIRED, MATURED),
                                "outstanding": of.either(of.plan == TERM, 0, of.amount)},
    "paidup": lambda of, line: {"status": MADE_PAIDUP, "amount": line.amount},
}


class Booking(NamedTuple):
    """The accounts between which a kind moves its cents, and the sign on the first one. The cents are the line's amount, or else
    what is outstanding after it."""

    first: str
    sign: int
    second: str
    is_of_line: bool


ACCOUNTS = ("cash", "premiums", "incurred", "payable")
BOOKINGS = {"premium": Booking("cash", 1, "premiums", True), "reinstate": Booking("cash", 1, "premiums", True),
            "settle": Booking("cash", -1, "payable", True), "claim": Booking("incurred", 1, "payable", False),
            "mature": Booking("incurred", 1, "payable", False)}
