"""Worlds in virtual time: `leasekeep serve` itself, a broker that follows Vault's rules, and what happens to both. README.md is the
way in."""
