"""Makes letters of confirmation for the policies of a sample: a row for each letter, and the letters as pages to print."""
from __future__ import annotations

import datetime
from html import escape
from typing import Mapping, Sequence

from life_tools.audit.samples import Sample
from life_tools.common.formats import demand, money
from life_tools.journal.columns import columns_at
from life_tools.reports.report_pages import apart
from life_tools.reports.whole_pages import whole_page
from life_tools.rules.policies import GRACE, Policy, anniversary, due_of, end_of, missed_by

HEADS = ("policy", "book", "as of", "position", "plan", "issued", "age at issue", "status", "amount", "premium a year",
         "premiums paid", "paid up to", "next premium due", "premium in arrears", "insured until", "last posting", "outstanding",
         "agrees", "remarks")
PLANS = {"term": "term insurance", "whole": "whole life insurance", "endowment": "endowment",
         "limited": "whole life insurance on limited premiums"}
STATUSES = {"inforce": "in force", "paidup": "paid up", "lapsed": "lapsed", "claimed": "claimed, not yet paid whole",
            "matured": "matured, not yet paid whole", "expired": "ended without a payment", "settled": "settled"}
UNPAID = "Due and unpaid"
STYLE = """
:root { color-scheme: light }
* { box-sizing: border-box }
body { font: 11pt/1.5 Georgia, "DejaVu Serif", serif; color: #1b1f23; background: #fff }
body { margin: 0 auto; padding: 1rem; max-width: 46rem }
h1 { font-size: 1.2rem } h2 { font-size: 1.15rem; margin: 0 0 1rem }
section { border-top: 2px solid #1b1f23; margin-top: 2rem; padding-top: 2rem }
.address { height: 5rem; border: 1px dashed #9aa5b1; width: 22rem; max-width: 100% }
.address { color: #57606a; font-size: .8rem; padding: .3rem .5rem }
table { border-collapse: collapse; margin: 1rem 0; width: 100% }
td { padding: .25rem .6rem; border-bottom: 1px solid #d9dee3; vertical-align: top }
td + td { text-align: right; font-variant-numeric: tabular-nums } .arrears { font-weight: 600 }
.box { display: inline-block; width: .9rem; height: .9rem; border: 1px solid #1b1f23; vertical-align: -.1rem }
.sign { display: grid; grid-template-columns: 1fr 1fr; gap: 2rem; margin-top: 2.5rem }
.sign div { border-top: 1px solid #1b1f23; font-size: .8rem }
@media print { body { padding: 0; max-width: none } h1 { display: none }
  section { break-before: page; border: 0; margin: 0; padding: 0 }
  h1 + section { break-before: auto } }
"""


def insured_until(policy: Policy, on: datetime.date) -> str:
    """Returns the last day on which the policy is insured by the premiums paid up to a day, or "" if it is no longer insured.

    A premium that is due and unpaid can be paid up to the last day of grace. The cover ends on that day if it does not end
    before.
    """
    if policy.status not in ("inforce", "paidup"):
        return ""
    due, end = due_of(policy), end_of(policy)
    return str(min(end, due + GRACE) if due is not None and due <= on else end)


def row_of(policy: Policy, book: str, on: datetime.date, position: int) -> list[str]:
    """Returns the row of a letter; the last two fields are for the holder's reply."""
    is_paying = policy.status == "inforce"
    due = due_of(policy) if is_paying else None
    arrears = missed_by(policy, on) * policy.premium if is_paying else 0
    paid_to = str(anniversary(policy.issued, policy.paid)) if policy.paid else ""
    premium = money(policy.premium) if policy.status != "paidup" else ""
    return [str(policy.number), book, str(on), str(position), policy.plan, str(policy.issued), str(policy.age), policy.status,
            money(policy.amount), premium, str(policy.paid), paid_to, str(due or ""), money(arrears) if arrears else "",
            insured_until(policy, on), str(policy.last), money(policy.outstanding), "", ""]


def letters_of(sample: Sample, path: str, book: str) -> list[list[str]]:
    """Returns the rows of a sample's letters, from the journal at the sample's position."""
    columns = columns_at(path, sample.position)
    place_of = {int(number): place for place, number in enumerate(columns.policies.number)}
    demand(len(place_of) == sample.policies, f"{path} has {len(place_of)} policies at position {sample.position}")
    found = []
    for row in sample.rows:
        demand(row.number in place_of, f"{path} has no policy {row.number} at position {sample.position}")
        policy = columns.policies.policy(place_of[row.number])
        demand(policy.status == row.status, f"policy {row.number} is {policy.status}, and in the sample {row.status}")
        found.append(row_of(policy, book, sample.on, sample.position))
    return found


# --- as pages ---

def cover_in_words(told: Mapping[str, str]) -> str:
    """Returns how long the policy is insured, in words for its holder."""
    on, until = told["as of"], told["insured until"]
    if not until:
        return "no longer insured"
    if told["premium in arrears"] and until < on:
        return f"no longer insured: the last day of grace was {until}"
    if told["premium in arrears"]:
        return f"until {until}, unless the premium is paid by then"
    return f"until {until}" if until > on else f"ended on {until}"


def standing(told: Mapping[str, str]) -> str:
    """Returns the status; a policy past its grace, of which no lapse is posted, is in arrears and not in force."""
    is_past = told["premium in arrears"] and told["insured until"] < told["as of"]
    return "in arrears" if is_past else STATUSES[told["status"]]


def lines_of(told: Mapping[str, str]) -> list[tuple[str, str]]:
    """Returns what the holder is asked to confirm: pairs of a name and what the book has."""
    found = [("Insurance", PLANS[told["plan"]]), ("Issued", f"{told['issued']}, at age {told['age at issue']}"),
             ("Standing", standing(told)), ("Amount insured", apart(told["amount"]))]
    if told["premium a year"]:
        found.append(("Premium a year", apart(told["premium a year"])))
    found.append(("Premiums paid", told["premiums paid"] + (f", up to {told['paid up to']}" if told["paid up to"] else "")))
    if told["premium in arrears"]:
        found.append((UNPAID, f"{apart(told['premium in arrears'])} since {told['next premium due']}"))
    elif told["status"] == "inforce":
        found.append(("Next premium due", told["next premium due"] or "none: all premiums are paid"))
    found.append(("Insured", cover_in_words(told)))
    if told["outstanding"] != "0.00":
        found.append(("Still to be paid to you", apart(told["outstanding"])))
    return found


def letter(row: Sequence[str]) -> list[str]:
    """Returns the lines of one letter, which is printed on a sheet of its own."""
    told = dict(zip(HEADS, row))
    lines = "".join(f"<tr{' class=arrears' if name == UNPAID else ''}><td>{escape(name)}</td><td>{escape(says)}</td></tr>"
                    for name, says in lines_of(told))
    return [f"<section id=\"letter-{escape(told['policy'])}\"><div class=\"address\">name and address of the holder</div>",
            f"<h2>Policy {escape(told['policy'])}: please confirm</h2>",
            f"<p>In an audit of {escape(told['book'])} we compare the records of the insurer with yours. On "
            f"{escape(told['as of'])} its records said of your policy:</p>", f"<table>{lines}</table>",
            "<p><span class=\"box\"></span> This agrees with my records. &emsp; <span class=\"box\"></span> It doesn't agree, "
            "since:</p>", "<div class=\"sign\"><div>day</div><div>signature</div></div>",
            f"<p>Reference: {escape(told['book'])}, position {escape(apart(told['position']))}.</p></section>"]


def letter_page(rows: Sequence[Sequence[str]], book: str, facts: Mapping[str, str]) -> str:
    """Returns the letters as one page, with each letter on its own sheet of paper."""
    parts = [line for row in rows for line in letter(row)]
    return whole_page(f"Letters of confirmation: {book}", STYLE, facts, parts)
