"""Whole replies of Vault, as Go's server writes them: heads and bodies with the fields that each version from 1.8 to 1.19 has, and
the samples of its API pages. They are written by hand from those pages and recorded from no Vault. Every set is about the same
token T, with 100 seconds to its end, and its lease L, with 60, both issued at 1000 (docs/definitions.md), and renews them in full.
"""

from __future__ import annotations

import json
from dataclasses import dataclass
from typing import Any

LEASE_ID = "L"
ISSUED = "1970-01-01T00:16:40.228946471Z"
ISSUED_IN_NEW_YORK = "1969-12-31T19:16:40.228946471-05:00"
EXPIRES = "1970-01-01T00:18:20.228946471Z"


@dataclass(frozen=True)
class Replies:
    """What one Vault answers, whole: by the ends of the paths."""

    name: str
    of_path: dict[str, bytes]

    def to(self, request: bytes, date: str) -> bytes:
        """The reply to that request, with that Date."""
        path = request.split(b" ")[1].decode()
        reply = next(reply for end, reply in self.of_path.items() if path.endswith(end))
        return reply.replace(b"DATE", date.encode())


def versions() -> list[Replies]:
    """Each version with what it added."""
    found = []
    for minor in range(8, 20):
        found.append(Replies(f"1.{minor}", {
            "lookup-self": _message(minor, data=_token_data(minor)),
            "leases/lookup": _message(minor, data=_lease_data(), is_flat=True),
            "renew-self": _message(minor, auth=_auth(minor)),
            "leases/renew": _message(minor, lease=(LEASE_ID, True, 60)),
        }))
    return found


def variants() -> list[Replies]:
    """Fields that only some tokens and leases have, and what Enterprise adds."""
    plain = versions()[-1].of_path
    renewed = {**_token_data(19), "last_renewal": ISSUED, "last_renewal_time": 1000}
    periodic = {**_token_data(19), "period": 100}
    of_namespace = {**_token_data(19), "namespace_path": "team-a/", "external_namespace_policies": {"root": ["x"]}, "bound_cidrs": ["127.0.0.1"]}
    warned = ['TTL of "2400h" exceeded the effective max_ttl of "768h"; TTL value is capped accordingly']
    many = [f"team-a-service-{number:03d}-read-only" for number in range(100)]
    return [
        Replies("renewed before", {**plain, "lookup-self": _message(19, data=renewed), "leases/lookup": _message(
            19, data={**_lease_data(), "last_renewal": ISSUED_IN_NEW_YORK}, is_flat=True)}),
        Replies("periodic", {**plain, "lookup-self": _message(19, data=periodic)}),
        Replies("of a namespace", {**plain, "lookup-self": _message(19, data=of_namespace)}),
        Replies("with warnings", {**plain, "renew-self": _message(19, auth=_auth(19), warnings=warned)}),
        # (Go sends what is longer than two kilobytes in chunks.)
        Replies("with a hundred policies", {
            **plain, "lookup-self": _message(19, data={**_token_data(19), "policies": many}),
            "renew-self": _message(19, auth={**_auth(19), "policies": many, "token_policies": many})}),
    ]


def samples() -> Replies:
    """The samples of the API pages, which show the fields that matter alone; the moments and durations are T's and L's."""
    def sample(told: dict[str, Any]) -> bytes:
        return _framed(8, json.dumps(told, indent=2).encode())
    return Replies("the pages' samples", {
        "lookup-self": sample({"data": {
            "accessor": "8609694a-cdbc-db9b-d345-e782dbb562ed", "creation_time": 1000, "creation_ttl": 2764800,
            "display_name": "ldap2-tesla", "entity_id": "7d2e3179-f69b-450c-7179-ac8ee8bd8ca9", "expire_time": EXPIRES,
            "explicit_max_ttl": 0, "id": "cf64a70f-3a12-3f6c-791d-6cef6d390eed", "identity_policies": ["dev-group-policy"],
            "issue_time": ISSUED_IN_NEW_YORK, "meta": {"username": "tesla"}, "num_uses": 0, "orphan": True,
            "path": "auth/ldap2/login/tesla", "policies": ["default", "testgroup2-policy"], "renewable": True, "ttl": 100}}),
        "leases/lookup": sample({"id": LEASE_ID, "issue_time": ISSUED_IN_NEW_YORK, "expire_time": EXPIRES, "last_renewal": None,
                                 "renewable": True, "ttl": 60}),
        "renew-self": sample({"auth": {"client_token": "ABCD", "policies": ["web", "stage"], "metadata": {"user": "armon"},
                                       "lease_duration": 100, "renewable": True}}),
        "leases/renew": sample({"lease_id": LEASE_ID, "renewable": True, "lease_duration": 60}),
    })


def _token_data(minor: int) -> dict[str, Any]:
    """The facts of a token, in Go's order of keys."""
    id = "hvs.CAESIJ1sPqGxkkJ8u5Zk0rYlJ5d2RQc3pQeVdKd1lUc2VvZ0x2c0ZuQ2hV" if minor >= 10 else "s.ZRMYRTGYVWgkN0wnFZ5uGbNc"
    return {"accessor": "8609694aCdbcDb9bD345e782", "creation_time": 1000, "creation_ttl": 100, "display_name": "approle",
            "entity_id": "7d2e3179-f69b-450c-7179-ac8ee8bd8ca9", "expire_time": EXPIRES, "explicit_max_ttl": 0, "id": id,
            "issue_time": ISSUED, "meta": {"role_name": "web <prod> & more"}, "num_uses": 0, "orphan": True,
            "path": "auth/approle/login", "policies": ["default", "web"], "renewable": True, "ttl": 100, "type": "service"}


def _lease_data() -> dict[str, Any]:
    return {"expire_time": "1970-01-01T00:17:40.228946471Z", "id": LEASE_ID, "issue_time": ISSUED, "last_renewal": None, "renewable": True,
            "ttl": 60}


def _auth(minor: int) -> dict[str, Any]:
    told: dict[str, Any] = {
        "client_token": _token_data(minor)["id"], "accessor": "8609694aCdbcDb9bD345e782", "policies": ["default", "web"],
        "token_policies": ["default", "web"], "metadata": {"role_name": "web <prod> & more"}, "lease_duration": 100, "renewable": True,
        "entity_id": "7d2e3179-f69b-450c-7179-ac8ee8bd8ca9", "token_type": "service", "orphan": True}
    if minor >= 10:
        told |= {"mfa_requirement": None, "num_uses": 0}
    return told


def _message(minor: int, lease: tuple[str, bool, int] = ("", False, 0), data: dict[str, Any] | None = None,
             auth: dict[str, Any] | None = None, warnings: list[str] | None = None, is_flat: bool = False) -> bytes:
    """A whole reply. Below sys/ Vault writes the data twice: as fields of the whole, in front, and as `data` (`is_flat`)."""
    told: dict[str, Any] = {"request_id": "f9b7a1f0-9a29-6a4e-1bd5-0a1f7e0b8a4c", "lease_id": lease[0], "renewable": lease[1],
                            "lease_duration": lease[2], "data": data, "wrap_info": None, "warnings": warnings, "auth": auth}
    if minor >= 17:
        told["mount_type"] = "system" if is_flat or lease[0] else "token"
    body = _go(told)
    if is_flat:
        assert data is not None
        body = b"{" + b", ".join(_go(key) + b": " + _go(value) for key, value in data.items()) + b", " + body[1:]
    return _framed(minor, body + b"\n")


def _go(value: Any) -> bytes:
    """As Go's encoder writes it: without blanks, and with what HTML would take for its own escaped."""
    text = json.dumps(value, separators=(",", ":"))
    for letter in "<>&":
        text = text.replace(letter, f"\\u{ord(letter):04x}")
    return text.encode()


def _framed(minor: int, body: bytes) -> bytes:
    """The message with the head of that version; in chunks where Go would send it so."""
    head = b"HTTP/1.1 200 OK\r\nCache-Control: no-store\r\nContent-Type: application/json\r\n"
    if minor >= 9:
        head += b"Strict-Transport-Security: max-age=31536000; includeSubDomains\r\n"
    head += b"Date: DATE\r\n"
    if len(body) > 2048:
        return head + b"Transfer-Encoding: chunked\r\n\r\n%x\r\n%s\r\n0\r\n\r\n" % (len(body), body)
    return head + b"Content-Length: %d\r\n\r\n%s" % (len(body), body)
