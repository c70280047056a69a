"""The inventory: its text read and judged, its doubts, and one made from a short list and lookups at the broker.

Begin with `inventory` and `inventory_file`. Nothing here keeps an entry alive.
"""
