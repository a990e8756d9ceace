"""The page for a browser: one file, which asks no other server for anything."""

from __future__ import annotations

import os
import secrets
import sys

from .answers import Refusal, Reply

HERE = os.path.dirname(os.path.abspath(__file__))
PLACES = [os.path.join(HERE, "..", "natix-serve.html"), os.path.join(sys.prefix, "share", "natix", "natix-serve.html"), "/usr/share/natix/natix-serve.html"]

RULES = "default-src 'none'; script-src NONCE; style-src NONCE; connect-src 'self'; base-uri 'none'; frame-ancestors 'none'; form-action 'none'"


def page() -> Reply:
    """The page, of which only its own script runs."""
    for path in PLACES:
        if os.path.exists(path):
            with open(path, encoding="utf-8") as file:
                text = file.read()
            word = secrets.token_urlsafe(12)
            headers = {"Content-Security-Policy": RULES.replace("NONCE", f"'nonce-{word}'"), "X-Content-Type-Options": "nosniff", "Vary": "Accept",
                       "Cache-Control": "no-cache", "Referrer-Policy": "no-referrer"}
            return Reply(200, text.replace("{{NONCE}}", word).encode(), "text/html; charset=utf-8", headers)
    raise Refusal(404, "no-page", "natix-serve.html isn't there")
