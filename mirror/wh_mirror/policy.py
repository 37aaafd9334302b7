"""The policy in force: which attributes the dimensions have, and how each follows its changes."""

import re
import tomllib
from dataclasses import dataclass
from enum import StrEnum

_NAME = re.compile(r"[a-z][a-z0-9_]{0,23}")


class Dimension(StrEnum):
    """The dimensions that have attributes."""

    PRODUCT = "product"
    STORE = "store"
    CUSTOMER = "customer"


@dataclass(frozen=True)
class Attribute:
    """An attribute of a dimension: its slot, from 1, and the type of slowly changing dimension that it follows."""

    dimension: Dimension
    name: str
    slot: int
    type: int


class BadPolicy(ValueError):
    """The bytes aren't a policy."""


def read_policy(written: bytes) -> list[Attribute]:
    """The attributes of a policy, dimension by dimension and slot by slot."""
    try:
        top = tomllib.loads(written.decode("utf-8-sig"))
        attributes = [
            Attribute(dimension, table["name"], slot, table["type"])
            for dimension in Dimension
            for slot, table in enumerate(top[dimension], start=1)
        ]
    except (UnicodeDecodeError, tomllib.TOMLDecodeError, KeyError, TypeError) as error:
        raise BadPolicy(str(error)) from error
    for attribute in attributes:
        if not isinstance(attribute.name, str) or not _NAME.fullmatch(attribute.name):
            raise BadPolicy(f"{attribute.name!r} is no name")
        if attribute.type not in range(8) or attribute.slot > 6:
            raise BadPolicy(f"{attribute.name} has no type from 0 to 7, or no slot")
    return attributes
