"""Serves the window on the loopback, with a limit on the number of connections and on the seconds of each."""
from __future__ import annotations

import importlib
import socket
import threading
import time
from typing import Any

from life_tools.common.formats import Wrong
from life_tools.window.door import Door

LOOPBACK = "127.0.0.1"
MOST_CONNECTIONS = 64
# a request must be complete and answered within so many seconds
WHOLE_REQUEST = 15
# seconds between two checks for connections past their time
EACH = 0.5
FULL = b"HTTP/1.0 503 Service Unavailable\r\nConnection: close\r\nContent-Length: 0\r\n\r\n"


class Deadlines:
    """The open connections, each with the time at which it is ended, and one thread that ends them."""

    def __init__(self, most: int = MOST_CONNECTIONS, seconds: float = WHOLE_REQUEST) -> None:
        self.most, self.seconds = most, seconds
        self.open: dict[Any, float] = {}
        self.turn = threading.Lock()
        threading.Thread(target=self.watch, daemon=True).start()

    def begins(self, line: Any) -> bool:
        """Returns whether one more connection is permitted, and registers it."""
        with self.turn:
            if len(self.open) >= self.most:
                return False
            self.open[line] = time.monotonic() + self.seconds
        return True

    def ends(self, line: Any) -> None:
        with self.turn:
            self.open.pop(line, None)

    def watch(self) -> None:
        while True:
            time.sleep(EACH)
            now = time.monotonic()
            with self.turn:
                late = [line for line, until in self.open.items() if until < now]
            for line in late:
                end(line)


def end(line: Any) -> None:
    """Ends a connection for both sides; whoever reads from it or writes to it gets an error at once."""
    try:
        line.shutdown(socket.SHUT_RDWR)
    except OSError:
        pass


def quiet_handler() -> Any:
    """Returns a request handler that keeps no log, since an address may contain the token."""
    serving: Any = importlib.import_module("werkzeug.serving")

    class Handler(serving.WSGIRequestHandler):  # type: ignore[misc] # werkzeug is imported late, so its type is Any
        timeout = WHOLE_REQUEST
        # each request has its own connection, so that bytes left by a refused request are never read as another one
        protocol_version = "HTTP/1.0"
        server_version, sys_version = "life", ""

        def version_string(self) -> str:
            return "life"

        def log(self, *_: object) -> None:
            pass

    return Handler


def server_class() -> Any:
    serving: Any = importlib.import_module("werkzeug.serving")

    class Server(serving.ThreadedWSGIServer):  # type: ignore[misc] # likewise
        # connections beyond the limit get an answer at once, and hold no resources
        request_queue_size = MOST_CONNECTIONS
        deadlines = Deadlines()

        def process_request(self, request: Any, client_address: Any) -> None:
            if not self.deadlines.begins(request):
                try:
                    request.settimeout(EACH)
                    request.sendall(FULL)
                except OSError:
                    pass
                self.shutdown_request(request)
                return
            super().process_request(request, client_address)

        def shutdown_request(self, request: Any) -> None:
            self.deadlines.ends(request)
            super().shutdown_request(request)

        def handle_error(self, request: Any, client_address: Any) -> None:
            """Reports nothing if a connection ended while it was answered."""

    return Server


def served(door: Door, port: int) -> Any:
    """Returns a server for the guard at a port; port 0 takes a free port."""
    try:
        return server_class()(LOOPBACK, port, door, quiet_handler())
    except (OSError, SystemExit) as error:
        raise Wrong(f"port {port} can't be had: {getattr(error, 'strerror', None) or 'it is taken'}") from None
