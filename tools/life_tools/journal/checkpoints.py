"""Reads and writes the file `checkpoint.life`: which bytes are a checkpoint, and the books in it (docs/reference/journal.md)."""
from __future__ import annotations

import datetime
from dataclasses import dataclass
from typing import Iterable, NamedTuple

from life_tools.rules.commands import EPOCH, Command, demand_valid
from life_tools.common.formats import FIRST_DAY, LAST_DAY, MOST_COMMANDS, PLANS, STATUSES, Wrong, demand
from life_tools.rules.policies import Book, Policy, balances_of, payments_of
from life_tools.rules.tables import ACCOUNTS, PLAN_CODES

HEADER = b"LIFECHKP" + bytes([0, 1, 0, 48, 0, 0, 0, 0])
HEADER_SIZE, POLICY_SIZE, OPEN = 64, 48, 1
MOST_CENTS_A_COMMAND = 4 * 10**10


class Header(NamedTuple):
    """The number of commands, the position of the upgrade or 0, the number of policies, and the balances in cents."""

    position: int
    upgrade: int
    policies: int
    balances: dict[str, int]


@dataclass(frozen=True)
class Checkpoint:
    """The books after a journal's first commands: their number, the position of the upgrade or 0, the balances, the policies."""

    position: int
    upgrade: int
    balances: dict[str, int]
    policies: list[Policy]


def number_of(data: bytes) -> int:
    return int.from_bytes(data, "big")


def signed_of(data: bytes) -> int:
    return int.from_bytes(data, "big", signed=True)


def day_of(data: bytes) -> datetime.date:
    days = signed_of(data)
    demand(-25567 <= days <= 84005, f"a day is {days}")
    return EPOCH + datetime.timedelta(days)


def policy_in(data: bytes) -> Policy:
    """Returns the policy that these 48 bytes encode and raises Wrong if it is not sound."""
    demand(not any(data[9:12]) and not any(data[44:48]), "a byte between its fields isn't 0")
    demand(data[4] in PLANS and 1 <= data[8] <= len(STATUSES), f"its plan is {data[4]}, its status {data[8]}")
    policy = Policy(number_of(data[:4]), PLANS[data[4]], data[5], data[6], number_of(data[20:28]), number_of(data[28:36]),
                    day_of(data[12:16]), day_of(data[16:20]), STATUSES[data[8] - 1], data[7], number_of(data[36:44]))
    demand_valid(Command("issue", policy.number, policy.issued, policy.plan, policy.age, policy.years, policy.amount,
                         policy.premium))
    demand(policy.paid <= payments_of(policy), f"{policy.paid} premiums are paid")
    demand(FIRST_DAY <= policy.issued <= policy.last <= LAST_DAY, f"its last day is {policy.last}")
    demand(policy.outstanding <= policy.amount, "more is outstanding than is insured")
    demand((policy.outstanding > 0) == (policy.status in ("claimed", "matured")), f"{policy.outstanding} cents are outstanding")
    return policy


def header_in(data: bytes) -> Header:
    """Returns a checkpoint's header and raises Wrong if the bytes cannot be a checkpoint; the policies are not read."""
    demand(data[:1] == bytes([OPEN]), "byte 0, its commit byte, isn't 1")
    demand(len(data) >= HEADER_SIZE, f"it has {len(data)} bytes")
    demand(data[1:17] == HEADER, "its header is another one")
    position, upgrade, many = (number_of(data[at:at + 4]) for at in (17, 21, 25))
    demand(position <= MOST_COMMANDS and upgrade <= position and many <= position,
           f"of {position} commands there are {many} policies, and the upgrade is command {upgrade}")
    demand(len(data) >= HEADER_SIZE + POLICY_SIZE * many, f"of {many} policies it has {len(data)} bytes")
    balances = {account: signed_of(data[29 + 8 * n:37 + 8 * n]) for n, account in enumerate(ACCOUNTS)}
    for account, cents in balances.items():
        demand(abs(cents) <= MOST_CENTS_A_COMMAND * position, f"{account} is {cents} cents after {position} commands")
    demand(not any(data[61:64]), "a byte before the policies isn't 0")
    return Header(position, upgrade, many, balances)


def checkpoint_in(data: bytes) -> Checkpoint:
    """Returns the books in a file's bytes, which must be a checkpoint. Bytes after the last policy have no meaning."""
    header = header_in(data)
    return Checkpoint(header.position, header.upgrade, header.balances, list(policies_in(data, header.policies)))


def policies_in(data: bytes, many: int) -> Iterable[Policy]:
    numbers = set()
    for n in range(many):
        at = HEADER_SIZE + POLICY_SIZE * n
        try:
            policy = policy_in(data[at:at + POLICY_SIZE])
        except Wrong as wrong:
            raise Wrong(f"policy {n}, at byte {at}: {wrong}") from wrong
        demand(policy.number not in numbers, f"policy {n}, at byte {at}: the number {policy.number} stands there twice")
        numbers.add(policy.number)
        yield policy


def checkpoint_of(commands: Iterable[Command]) -> Checkpoint:
    """Returns the checkpoint of a journal that has these commands."""
    book = Book(commands)
    return Checkpoint(len(book.commands), book.upgrade, balances_of(book.commands), list(book.policies.values()))


def bytes_of_checkpoint(checkpoint: Checkpoint) -> bytes:
    """Returns the bytes of the file that the program writes."""
    made = bytearray(bytes([OPEN]) + HEADER)
    for number in (checkpoint.position, checkpoint.upgrade, len(checkpoint.policies)):
        made += number.to_bytes(4, "big")
    for account in ACCOUNTS:
        made += checkpoint.balances[account].to_bytes(8, "big", signed=True)
    made += bytes(3)
    for policy in checkpoint.policies:
        made += policy.number.to_bytes(4, "big")
        status = STATUSES.index(policy.status) + 1
        made += bytes([PLAN_CODES[policy.plan], policy.age, policy.years, policy.paid, status]) + bytes(3)
        for day in (policy.issued, policy.last):
            made += (day - EPOCH).days.to_bytes(4, "big", signed=True)
        for cents in (policy.amount, policy.premium, policy.outstanding):
            made += cents.to_bytes(8, "big")
        made += bytes(4)
    return bytes(made)
