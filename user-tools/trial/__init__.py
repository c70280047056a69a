"""Trials of the agent without a Vault: minibroker in real time, behind a relay that stamps each connection."""
