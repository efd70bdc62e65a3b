"""Guards the window by `Door`: decides by host name, token and cookie which requests are let in, and sets the headers.

It comes before everything else, so that a request is refused before any page, path or argument of it is examined. Every path
begins with a random prefix of the window. The browser sends the cookie only to that prefix, so that another server on this
machine, on whatever port, does not receive it.
"""
from __future__ import annotations

import hmac
import re
import secrets
import threading
from dataclasses import dataclass, field
from html import escape
from http.cookies import CookieError, SimpleCookie
from typing import Any, Callable, Iterable
from urllib.parse import parse_qsl, quote, urlencode

Environment = dict[str, Any]
StartResponse = Callable[..., Any]
Application = Callable[[Environment, StartResponse], Iterable[bytes]]
Refused = tuple[int, str, list[tuple[str, str]]]

TOKEN_BYTES = 16
# a longer path with its query belongs to no page
MOST_LETTERS = 1024
# at most so many tokens are open at a time; a further one invalidates the oldest
MOST_OPEN = 16
# pages of a book that another page of the window shows in a frame; no other page can be shown in one
FRAMED = re.compile(r"/[0-9]+/year-ends")
POLICY = "default-src 'none'; style-src 'self'; img-src 'self'; frame-src 'self'; form-action 'self'; base-uri 'none'"
HEADERS = (("Referrer-Policy", "no-referrer"), ("Cache-Control", "no-store"), ("X-Content-Type-Options", "nosniff"),
           ("Cross-Origin-Resource-Policy", "same-origin"))
REASONS = {303: "See Other", 403: "Forbidden", 404: "Not Found", 405: "Method Not Allowed", 414: "URI Too Long"}


def new_secret() -> str:
    return secrets.token_hex(TOKEN_BYTES)


def headers_of(path: str) -> list[tuple[str, str]]:
    """Returns the headers of each answer to a request for a path after the prefix."""
    framing = "'self'" if FRAMED.fullmatch(path) else "'none'"
    return [("Content-Security-Policy", f"{POLICY}; frame-ancestors {framing}"), *HEADERS]


def same(one: str, other: str) -> bool:
    """Returns whether two secrets are equal; the time that this takes does not show where they differ."""
    return hmac.compare_digest(one.encode("utf-8", "replace"), other.encode("utf-8", "replace"))


@dataclass
class Door:
    """An application behind its guard, with the port, which decides the valid host names, and tokens that each work once."""

    inside: Application
    port: int
    cookie: str = field(default_factory=new_secret)
    prefix: str = field(default_factory=lambda: f"/{secrets.token_hex(8)}")
    open_tokens: list[str] = field(default_factory=list)
    used_tokens: list[str] = field(default_factory=list)
    turn: threading.Lock = field(default_factory=threading.Lock)

    @property
    def cookie_name(self) -> str:
        return f"life-window-{self.port}"

    def invitation(self, page: str) -> str:
        """Returns the address of a page whose path begins with the prefix, with a new token for whoever opens it first."""
        token = new_secret()
        with self.turn:
            self.open_tokens = [*self.open_tokens[1 - MOST_OPEN:], token]
        return f"http://127.0.0.1:{self.port}{page}{'&' if '?' in page else '?'}token={token}"

    def __call__(self, environ: Environment, start: StartResponse) -> Iterable[bytes]:
        answer = self.refusal(environ) or self.exchange(environ)
        own = headers_of("" if answer else environ["PATH_INFO"].removeprefix(self.prefix))

        def guarded(status: str, headers: list[tuple[str, str]], *failure: Any) -> Any:
            names = {name.lower() for name, _ in own}
            return start(status, [each for each in headers if each[0].lower() not in names] + own, *failure)

        if answer is None:
            environ["SCRIPT_NAME"] = self.prefix
            environ["PATH_INFO"] = environ["PATH_INFO"].removeprefix(self.prefix)
            return self.inside(environ, guarded)
        status, words, more = answer
        page = f"<!doctype html><html lang=\"en\"><title>life</title><p>{escape(words)}</p></html>\n".encode()
        headers = [("Content-Type", "text/html; charset=utf-8"), ("Content-Length", str(len(page))), *more]
        guarded(f"{status} {REASONS[status]}", headers)
        return [b"" if environ.get("REQUEST_METHOD") == "HEAD" else page]

    def refusal(self, environ: Environment) -> Refused | None:
        """Returns why a request is refused whoever sends it, or None."""
        path = environ.get("PATH_INFO", "")
        if environ.get("HTTP_HOST") not in (f"127.0.0.1:{self.port}", f"localhost:{self.port}"):
            return 403, f"This window has the addresses 127.0.0.1:{self.port} and localhost:{self.port}, and no other.", []
        if environ.get("REQUEST_METHOD") not in ("GET", "HEAD"):
            return 405, "This window only reads: it accepts GET and HEAD.", [("Allow", "GET, HEAD")]
        if len(path) + len(environ.get("QUERY_STRING", "")) > MOST_LETTERS:
            return 414, "No page has so long an address.", []
        if "//" in path:
            return 404, "No page has such an address.", []
        if not same(path[:len(self.prefix) + 1], f"{self.prefix}/"):
            return 403, "Open the window by the address that life-tools browse printed.", []
        return None

    def exchange(self, environ: Environment) -> Refused | None:
        """Gives the cookie, and an address without the token, to whoever first brings a token; refuses others without the
        cookie."""
        words = parse_qsl(environ.get("QUERY_STRING", ""), keep_blank_values=True)
        tokens = [text for name, text in words if name == "token"]
        if len(tokens) == 1:
            more = urlencode([each for each in words if each[0] != "token"])
            return self.let_in(tokens[0], quote(environ["PATH_INFO"]) + (f"?{more}" if more else ""))
        if not same(self.brought(environ), self.cookie):
            return 403, "Open the window by the address that life-tools browse printed.", []
        return None

    def let_in(self, token: str, page: str) -> Refused:
        with self.turn:
            found = [each for each in self.open_tokens if same(token, each)]
            was_used = any([same(token, each) for each in self.used_tokens])
            self.open_tokens = [each for each in self.open_tokens if each not in found]
            self.used_tokens += found
        if was_used:
            return 403, ("This address works once, and was used already. If somebody else may have used it, close the window; "
                         "life-tools browse opens another one."), []
        if not found:
            return 403, "That isn't this window's token.", []
        kept = f"{self.cookie_name}={self.cookie}; HttpOnly; SameSite=Strict; Path={self.prefix}/"
        return 303, "Come in.", [("Location", page), ("Set-Cookie", kept)]

    def brought(self, environ: Environment) -> str:
        try:
            cookies: SimpleCookie[str] = SimpleCookie(environ.get("HTTP_COOKIE", ""))
        except CookieError:
            return ""
        return cookies[self.cookie_name].value if self.cookie_name in cookies else ""
