"""Reads the books of a checkpoint with the policies as columns; `checkpoints` reads the same policy by policy."""
from __future__ import annotations

from dataclasses import dataclass, fields

from life_tools.common.arrays import Array, np
from life_tools.journal.checkpoints import HEADER_SIZE, POLICY_SIZE, Header, header_in, policy_in
from life_tools.journal.columns import Columns
from life_tools.journal.day_columns import FIRST, LAST
from life_tools.common.formats import MOST_CENTS, STATUSES, Wrong
from life_tools.journal.records import is_issue_right
from life_tools.journal.policy_columns import Policies, issue_terms
from life_tools.rules.tables import CLAIMED, LAST_AGE, MATURED

# a policy as it is stored in the file
POLICY = np.dtype([("number", ">u4"), ("plan", "u1"), ("age", "u1"), ("years", "u1"), ("paid", "u1"), ("status", "u1"),
                   ("idle", "u1", 3), ("issued", ">i4"), ("last", ">i4"), ("amount", ">u8"), ("premium", ">u8"),
                   ("outstanding", ">u8"), ("rest", ">u4")])
assert POLICY.itemsize == POLICY_SIZE


@dataclass(frozen=True)
class CheckpointColumns:
    """The books after the first commands of a journal: the header and the policies."""

    header: Header
    policies: Policies

    def is_of(self, book: Columns) -> bool:
        """Returns whether these are the books of the journal after as many commands as the header says."""
        before = book.front(self.header.position)
        same = self.header.upgrade == before.upgrade and self.header.balances == before.balances
        return same and all(np.array_equal(getattr(self.policies, column.name), getattr(before.policies, column.name))
                            for column in fields(Policies))


def is_sound(raw: Array, of: Policies) -> Array:
    """Returns which policies are sound, by the fields of the file and by what follows from them."""
    owed = (of.status == CLAIMED) | (of.status == MATURED)
    sound: Array = (~raw["idle"].any(axis=1) & (raw["rest"] == 0) & (of.status >= 1) & (of.status <= len(STATUSES))
                    & is_issue_right(of.plan, of.age, of.years) & (of.number >= 1)
                    & (of.amount >= 1) & (of.amount <= MOST_CENTS) & (of.premium >= 1) & (of.premium <= MOST_CENTS)
                    & (of.paid <= of.payments) & (of.issued >= FIRST) & (of.issued <= of.last) & (of.last <= LAST)
                    & (of.outstanding >= 0) & (of.outstanding <= of.amount) & ((of.outstanding > 0) == owed))
    return sound


def policies_of(raw: Array) -> Policies:
    """Returns the columns of the policies, whatever the file holds."""
    number, plan, age, years, issued = (raw[name].astype(kind) for name, kind in (
        ("number", np.uint32), ("plan", np.uint8), ("age", np.uint8), ("years", np.uint8), ("issued", np.int32)))
    amount, premium, outstanding = (raw[name].astype(np.uint64).view(np.int64) for name in ("amount", "premium", "outstanding"))
    # a policy that is not sound may have any cover
    terms = issue_terms(plan, np.minimum(age, LAST_AGE), np.minimum(years, LAST_AGE), np.clip(issued, FIRST, LAST))
    return Policies(number, plan, age, years, issued, terms.cover, terms.payments, terms.end, amount, premium,
                    raw["last"].astype(np.int32), raw["status"].copy(), raw["paid"].astype(np.int16), outstanding)


def first_again(number: Array) -> int | None:
    """Returns the first place whose number also stands at an earlier place, or None."""
    order = np.argsort(number, kind="stable")
    again = order[1:][number[order][1:] == number[order][:-1]]
    return int(again.min()) if len(again) else None


def checkpoint_columns(data: bytes) -> CheckpointColumns:
    """Returns the books in a file's bytes and raises Wrong if they are not a checkpoint."""
    header = header_in(data)
    raw = np.frombuffer(data, POLICY, header.policies, HEADER_SIZE) if header.policies else np.empty(0, POLICY)
    policies = policies_of(raw)
    unsound, again = np.flatnonzero(~is_sound(raw, policies)), first_again(policies.number)
    wrong = min([*map(int, unsound[:1]), *([] if again is None else [again])], default=None)
    if wrong is not None:
        at = HEADER_SIZE + POLICY_SIZE * wrong
        try:
            policy = policy_in(data[at:at + POLICY_SIZE])
        except Wrong as why:
            raise Wrong(f"policy {wrong}, at byte {at}: {why}") from why
        raise Wrong(f"policy {wrong}, at byte {at}: the number {policy.number} stands there twice")
    return CheckpointColumns(header, policies)
