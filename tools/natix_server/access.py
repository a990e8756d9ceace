"""Who may ask: users and tokens by a file, and which pages a browser may ask from."""

from __future__ import annotations

import asyncio
import base64
import binascii
import functools
import hashlib
import hmac
import ipaddress
import re
import secrets
from typing import Iterable, List, Mapping, Optional, Set, Tuple

from .answers import Refusal

TOKEN = "token"  # the user's name in a line that a bearer's token is asked of
LINE = re.compile(r"([^:\s]{1,200}):([0-9a-f]{32}):([0-9a-f]{64})")
MOST_AT_ONCE = 2  # passwords that are compared, which takes a while by intention
WATCHED = ("PUT", "POST", "DELETE", "MOVE", "COPY", "MKCOL", "PROPPATCH")


def digest_of(password: bytes, salt: bytes) -> str:
    return hashlib.scrypt(password, salt=salt, n=1 << 14, r=8, p=1, dklen=32).hex()


def line_of(user: str, password: bytes) -> str:
    """The line of a user in a file for `--auth`."""
    if not re.fullmatch(r"[^:\s]{1,200}", user):
        raise ValueError("a user's name has no colon and no space")
    salt = secrets.token_bytes(16)
    return f"{user}:{salt.hex()}:{digest_of(password, salt)}"


def read_users(text: str) -> List[Tuple[str, bytes, str]]:
    """The users of a file, with what their passwords are compared with. Empty lines and those from `#` on say nothing."""
    users = []
    for number, line in enumerate(text.splitlines(), 1):
        if line.strip() and not line.startswith("#"):
            found = LINE.fullmatch(line.strip())
            if not found:
                raise ValueError(f"line {number} is no line of a user, as natix-serve --user makes one")
            users.append((found[1], bytes.fromhex(found[2]), found[3]))
    return users


@functools.lru_cache(maxsize=1024)
def is_address(name: str) -> bool:
    try:
        ipaddress.ip_address(name)
        return True
    except ValueError:
        return False


class Access:
    """Who may ask. Without users everybody may who comes by one of the hosts' names."""

    def __init__(self, users: Optional[List[Tuple[str, bytes, str]]], hosts: Iterable[str]) -> None:
        self.users = users
        self.hosts = {host.lower() for host in hosts}
        self.known: Set[bytes] = set()  # digests of headers that were found to be right
        self.comparing = asyncio.Semaphore(MOST_AT_ONCE)

    async def check(self, method: str, headers: Mapping[str, str]) -> None:
        """Refuses who may not ask."""
        self.check_origin(method, headers)
        if self.users is None:
            if not self.is_known_host(headers.get("Host", "")):
                raise Refusal(403, "host", "this server is asked by another name: --host NAME adds one")
            return
        given = headers.get("Authorization", "")
        digest = hashlib.sha256(given.encode("utf-8", "surrogateescape")).digest()
        if digest in self.known:
            return
        if not given or not await self.is_right(given):
            raise Refusal(401, "user", "a user's name and password, or a token, are asked for", {"WWW-Authenticate": 'Basic realm="natix", charset="UTF-8"'})
        if len(self.known) > 1000:
            self.known.clear()
        self.known.add(digest)

    def is_known_host(self, host: str) -> bool:
        """Whether a request came by a name that is this server's own. A page of somebody else may lead its name to this machine."""
        name = re.sub(r":[0-9]+$", "", host).strip("[]").lower()
        return name == "localhost" or name in self.hosts or is_address(name)

    @staticmethod
    def check_origin(method: str, headers: Mapping[str, str]) -> None:
        """Refuses a change that a page of another server asks a browser for."""
        if method not in WATCHED:
            return
        origin = headers.get("Origin")
        if origin is not None and origin.partition("://")[2].lower() != headers.get("Host", "").lower():
            raise Refusal(403, "origin", "a page of another server asks for this")
        if headers.get("Sec-Fetch-Site", "same-origin") not in ("same-origin", "none"):
            raise Refusal(403, "origin", "a page of another server asks for this")

    async def is_right(self, given: str) -> bool:
        """Whether a header has the password of its user, or a token."""
        way, _, rest = given.partition(" ")
        if way.lower() == "bearer":
            user, password = TOKEN, rest.strip().encode("utf-8", "surrogateescape")
        elif way.lower() == "basic":
            try:
                name, colon, secret = base64.b64decode(rest.strip(), validate=True).partition(b":")
            except (binascii.Error, ValueError):
                return False
            user, password = name.decode("utf-8", "replace"), secret
            if not colon or user == TOKEN:
                return False
        else:
            return False
        wanted = [(salt, digest) for other, salt, digest in self.users or () if other == user] or [(bytes(16), "")]
        async with self.comparing:
            found = [await asyncio.get_running_loop().run_in_executor(None, digest_of, password, salt) for salt, _ in wanted]
        return any(hmac.compare_digest(one, digest) for one, (_, digest) in zip(found, wanted))
