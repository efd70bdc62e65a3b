"""States what a refusal means and what to do about it, for each kind of line; docs/reference/refusals.md shows the same table.

If the rules refuse a death or a maturity for want of cover, the advice is never to reinstate: a policy is put in force again only
while the insured is alive. If the advice is to post something, the steps stand beside it, and each of them is then accepted. If
an advice has no steps, it is to refer the case or to post nothing.
"""
from __future__ import annotations

from typing import NamedTuple

from life_tools.common.formats import KINDS, MOST_LANES, STATUSES, Wrong, demand, number_of

# steps other than a kind of line to post: the line itself again, unchanged or corrected, or in another book
AGAIN, OTHER_NUMBER, OTHER_DAY, OTHER_AMOUNT, OTHER_BOOK = "again", "number", "day", "amount", "book"
Steps = tuple[tuple[str, ...], ...]


class Remedy(NamedTuple):
    """The advice on a refusal.

    It has the kinds of line that it is for; the reason, with the status if it is `wrongstatus`; what it means; the advice; and
    the steps to post. If there is more than one sequence of steps, the policy's state decides which of them applies.
    """

    kinds: tuple[str, ...]
    reason: str
    means: str
    what: str
    steps: Steps = ()


POLICIES = ("premium", "alter", "lapse", "reinstate", "claim", "settle", "mature", "paidup")
REFER = "don't reinstate; refer it"
GIVE_BACK = "give the premium back outside the book"
REINSTATE = "if the insured is alive"
POSTED = {"claimed": "a death is posted", "matured": "the maturity is posted"}
IS_OVER = {"settled": "all that was insured is paid out", "expired": "the term has ended, and nothing is paid for it"}
UNPAID = "this day's premium wasn't paid within 31 days"
ENDED = "the insurance ended on this day"
SETTLE = "`settle` what is outstanding"
NOTHING = "post nothing: "
MISTYPED = "correct the line's day, if it is mistyped; else"
IN_ARREARS = "`mature` it, or `lapse` it if it is in arrears"


def of_status(status: str) -> tuple[Remedy, ...]:
    """Returns the remedies for lines on a policy that is claimed, matured, settled or expired."""
    reason, means = f"wrongstatus,{status}", {**POSTED, **IS_OVER}[status]
    if status in POSTED:
        return (
            Remedy(("premium",), reason, means, f"{GIVE_BACK}; {SETTLE}", (("settle",),)),
            Remedy(("alter", "lapse", "reinstate", "paidup"), reason, means, f"it can't be changed any more: {SETTLE}",
                   (("settle",),)),
            Remedy(("claim", "mature"), reason, means, f"it isn't posted twice: {SETTLE}", (("settle",),)),
        )
    return (
        Remedy(("premium",), reason, means, GIVE_BACK),
        Remedy(("alter", "lapse", "paidup"), reason, means, f"{NOTHING}there is no insurance left to change"),
        Remedy(("reinstate",), reason, means, "issue a new policy, under another number", (("issue",),)),
        Remedy(("claim",), reason, means, "pay nothing; refer it"),
        Remedy(("settle",), reason, means, "pay nothing more; refer it"),
        Remedy(("mature",), reason, means, f"{NOTHING}it is done"),
    )


REMEDIES = (
    Remedy(("issue",), "taken", "the number was used once, and is never free again", "issue it under another number",
           ((OTHER_NUMBER,),)),
    Remedy(POLICIES, "unknown", "no policy has the number",
           "correct the number, if it is mistyped; else look for the right folder", ((OTHER_NUMBER,),)),
    Remedy(("claim",), "beforelast", "the policy has a line of this later day",
           "refer it, unless `check` says that it was insured and of which day to post the claim", ((OTHER_DAY,),)),
    Remedy(tuple(kind for kind in POLICIES if kind != "claim"), "beforelast", "the policy's last line is of this day",
           "post it with this day or a later one", ((OTHER_DAY,),)),
    # --- a policy that has lapsed ---
    Remedy(("premium",), "wrongstatus,lapsed", "it has lapsed",
           f"in place of the premium `reinstate` it for all that is missed, {REINSTATE}", (("reinstate",),)),
    Remedy(("alter",), "wrongstatus,lapsed", "it has lapsed", f"`reinstate` it first, {REINSTATE}", (("reinstate", AGAIN),)),
    Remedy(("paidup",), "wrongstatus,lapsed", "it has lapsed", f"`reinstate` it first, {REINSTATE}", (("reinstate", AGAIN),)),
    Remedy(("lapse",), "wrongstatus,lapsed", "it has lapsed", f"{NOTHING}it is done"),
    Remedy(("claim", "mature"), "wrongstatus,lapsed", "it has lapsed: it wasn't insured then", REFER),
    Remedy(("settle",), "wrongstatus,lapsed", "it has lapsed: nothing is owed", "pay nothing; refer it"),
    # --- a policy in force, or paid up ---
    Remedy(("reinstate",), "wrongstatus,inforce", "it hasn't lapsed",
           f"if a premium is missed for more than 31 days, `lapse` it first, and then `reinstate` it, {REINSTATE}; else pay the "
           "`premium`", (("lapse", AGAIN), ("premium",))),
    *(Remedy(("settle",), f"wrongstatus,{status}", "neither a death nor a maturity is posted",
             "post the `claim` or the `mature` first", (("claim", AGAIN), ("mature", AGAIN)))
      for status in ("inforce", "paidup")),
    Remedy(("premium",), "wrongstatus,paidup", "no premium is due any more", GIVE_BACK),
    Remedy(("alter",), "wrongstatus,paidup", "what is paid up can't be altered",
           "issue a further policy for more; for less refer it", (("issue",),)),
    Remedy(("lapse",), "wrongstatus,paidup", "no premium is due, so none is missed", f"{NOTHING}it stays insured"),
    Remedy(("reinstate",), "wrongstatus,paidup", "it is insured without premiums", f"{NOTHING}it needs no reinstatement"),
    Remedy(("paidup",), "wrongstatus,paidup", "it is paid up", f"{NOTHING}it is done"),
    *of_status("claimed"),
    *of_status("matured"),
    *of_status("settled"),
    *of_status("expired"),
    # --- the term ---
    Remedy(("premium",), "termover", ENDED, f"{MISTYPED} {GIVE_BACK}, and {IN_ARREARS}",
           (("mature",), ("lapse",), (OTHER_DAY,))),
    Remedy(("alter", "paidup"), "termover", ENDED, f"{MISTYPED} {IN_ARREARS}: it can't be changed any more",
           (("mature",), ("lapse",), (OTHER_DAY,))),
    Remedy(("claim",), "termover", f"{ENDED}: it wasn't insured then", f"{MISTYPED} pay no claim, and {IN_ARREARS}",
           (("mature",), ("lapse",), (OTHER_DAY,))),
    Remedy(("reinstate",), "termover", ENDED, f"{MISTYPED} refer it, or issue a new policy",
           (("issue",), (OTHER_DAY,))),
    Remedy(("mature",), "notmatured", "the term ends on this day", "post it from this day on", ((OTHER_DAY,),)),
    # --- premiums ---
    Remedy(("premium",), "nothingdue", "all premiums are paid", GIVE_BACK),
    Remedy(("lapse",), "nothingdue", "all premiums are paid, so none is missed", f"{NOTHING}it stays insured"),
    Remedy(("paidup",), "nothingdue", "all premiums are paid", f"{NOTHING}it is insured in full without premiums"),
    Remedy(("premium",), "tooearly", "the next premium is due on this day", "post it from 90 days before this day on",
           ((OTHER_DAY,),)),
    Remedy(("premium",), "graceover", UNPAID,
           f"{MISTYPED} `lapse` it, and then `reinstate` it for all that is missed, {REINSTATE}",
           (("lapse", "reinstate"), (OTHER_DAY,))),
    Remedy(("alter", "paidup"), "graceover", UNPAID,
           f"{MISTYPED} `lapse` it, `reinstate` it for all that is missed, {REINSTATE}, and post it again",
           (("lapse", "reinstate", AGAIN), (OTHER_DAY,))),
    Remedy(("claim", "mature"), "graceover", f"{UNPAID}: it wasn't insured then", REFER),
    Remedy(("lapse",), "notinarrears", "the premium of this day has its 31 days of grace", "post it once these days are over",
           ((OTHER_DAY,),)),
    Remedy(("reinstate",), "toolate", "a reinstatement was possible up to this day",
           f"{MISTYPED} issue a new policy, under another number", (("issue",), (OTHER_DAY,))),
    # --- amounts ---
    Remedy(("premium", "reinstate"), "wrongamount", "this is the right amount", "post it with this amount", ((OTHER_AMOUNT,),)),
    Remedy(("alter", "paidup"), "notareduction", "this is insured, and the new amount has to be lower",
           "post a lower amount; for more issue a further policy", ((OTHER_AMOUNT,), ("issue",))),
    Remedy(("settle",), "oversettled", "this is outstanding", "pay no more than this", ((OTHER_AMOUNT,),)),
    # --- the book ---
    Remedy(("paidup",), "notupgraded", "the journal doesn't take `paidup` yet", "`upgrade` it once, and post it again",
           (("upgrade", AGAIN),)),
    Remedy(("upgrade",), "upgraded", "the line of this position upgraded the journal", f"{NOTHING}it is done"),
    Remedy(("issue",), "full", "the journal takes no more", "issue it in a further book", ((OTHER_BOOK,),)),
    Remedy((*POLICIES, "upgrade"), "full", "the journal takes no more, not of its own policies either; `state`, `checkpoint`, "
           "`value` and `project` still answer", "refer it: the policy has to go on outside this book"),
    # --- valuations ---
    Remedy(("value",), "ahead", "the position isn't there yet", "ask for a position up to this count"),
    Remedy(("value",), "trimmed", "the position lies before what a `trim` kept",
           "ask for a later position; `life value` has all"),
    Remedy(("value",), "pinsfull", "sixteen valuations are under way", "ask for it later"),
)
KIND_WORDS = (*KINDS.values(), "value")
BY_PAIR = {(kind, remedy.reason): remedy for remedy in REMEDIES for kind in remedy.kinds}


def remedy_of(kind: str, words: list[str]) -> Remedy:
    """Returns the advice on a line of this kind that was refused for a reason, such as `graceover` and a day."""
    reason = ",".join(words[:2]) if words[:1] == ["wrongstatus"] else words[0] if words else ""
    remedy = BY_PAIR.get((kind, reason))
    if remedy is None:
        raise Wrong(f"{','.join(words)} is no reason for which a {kind} is refused "
                    f"(one of wrongstatus has {', '.join(STATUSES)} after it)")
    return remedy


def is_refused(answer: str) -> bool:
    """Returns whether a line of a transcript says that a line of the script was refused."""
    return answer.split(",")[3:4] == ["refused"]


def explain_refusal(answer: str) -> None:
    lane, kind, number, _, *words = answer.split(",")
    is_line = number_of(lane, 1, MOST_LANES) and kind in KIND_WORDS
    demand(is_line, f"{answer} isn't LANE,KIND,ID,refused,REASON as a run prints it")
    remedy = remedy_of(kind, words)
    print(f"the {kind} of {number} was refused: {','.join(words)}\nmeans:  {remedy.means}\nto do:  {remedy.what}")
