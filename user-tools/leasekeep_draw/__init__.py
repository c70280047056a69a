"""leasekeep-draw: lives and renewals of tokens and leases, as a picture or as a text.

Begin with `chart`, which says what is drawn; `entries` and `history` read it, `picture` and `terminal` show it.
"""
