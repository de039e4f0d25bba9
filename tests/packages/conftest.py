"""Desks of the front desk, for what is asked without a program."""
from __future__ import annotations

from front_desk.conftest import desk, new_desk, society_desk, taken_society, today

__all__ = ["desk", "new_desk", "society_desk", "taken_society", "today"]
