"""Who may use a book that is served: the only way to accounts for terminal and pages, as their file keeps them."""
from __future__ import annotations

from gudokeyi.store.accounts import A_DAY as A_DAY, Account as Account, Accounts as Accounts, folded as folded
from gudokeyi.store.history import login as login
from gudokeyi.store.messages import AccountFault as AccountFault
from gudokeyi.store.transactions import make_folder as make_folder
