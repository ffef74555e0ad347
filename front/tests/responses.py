"""Responses of the APIs of a Prometheus and an Alertmanager, made for tests, as files and as a server."""

from __future__ import annotations

import json
import threading
from http.server import BaseHTTPRequestHandler, ThreadingHTTPServer
from pathlib import Path
from typing import Any, Callable
from urllib.parse import urlsplit

from front.moments import SECOND, nanoseconds

CONFIG = """\
route: {receiver: ops, group_by: [alertname], group_wait: 10s, group_interval: 1m, repeat_interval: 5m}
receivers: [{name: ops, webhook_configs: [{url: http://hooks.example/secret}]}]
"""
PATHS = {
    "/api/v1/status/config": "config",
    "/api/v1/status/flags": "flags",
    "/api/v1/status/runtimeinfo": "runtime",
    "/api/v1/rules": "rules",
    "/api/v1/query": "samples",
    "/api/v2/status": "status",
    "/api/v2/silences": "silences",
    "/api/v2/alerts": "alerts",
}


def rule(name: str, hold: int = 0, labels: dict[str, str] | None = None, **annotations: str) -> dict[str, Any]:
    """Returns a rule that alerts."""
    return {"type": "alerting", "name": name, "duration": hold, "labels": labels or {}, "annotations": annotations}


def samples(name: str, start: str, *seconds: int, state: str = "firing", **labels: str) -> dict[str, Any]:
    """Returns the samples of an alert at some seconds after a start."""
    first = nanoseconds(start) / SECOND
    metric = {"__name__": "ALERTS", "alertname": name, "alertstate": state, **labels}
    return {"metric": metric, "values": [[first + second, "1"] for second in seconds]}


def matrix(*results: dict[str, Any]) -> dict[str, Any]:
    """Returns an answer with series."""
    return {"status": "success", "data": {"resultType": "matrix", "result": list(results)}}


def prometheus(
    *series: dict[str, Any], rules: list[dict[str, Any]], config: str = "", interval: int = 30
) -> dict[str, Any]:
    """Returns the answers of a Prometheus by their names."""
    group = {"name": "group", "file": "rules.yml", "interval": interval, "rules": rules}
    return {
        "config": {"status": "success", "data": {"yaml": config or "global: {evaluation_interval: 30s}"}},
        "flags": {"status": "success", "data": {"rules.alert.resend-delay": "1m"}},
        "rules": {"status": "success", "data": {"groups": [group]}},
        "samples": matrix(*series),
    }


def alertmanager(
    config: str = CONFIG, silences: list[Any] | None = None, alerts: list[Any] | None = None
) -> dict[str, Any]:
    """Returns the answers of an Alertmanager by their names."""
    status = {"config": {"original": config}, "versionInfo": {"version": "0.25.0"}}
    return {"status": status, "silences": silences or [], "alerts": alerts or []}


def save(folder: Path, answers: dict[str, dict[str, Any]]) -> Path:
    """Writes the answers of servers, by the names of their folders."""
    for server, named in answers.items():
        (folder / server).mkdir(parents=True)
        for name, answer in named.items():
            (folder / server / f"{name}.json").write_text(json.dumps(answer))
    return folder


class Server:
    """A server on loopback that answers from a table, and remembers what it was asked."""

    def __init__(self, answers: dict[str, Any]) -> None:
        self.answers = answers
        self.asked: list[tuple[str, str, dict[str, str]]] = []
        self.act: Callable[[BaseHTTPRequestHandler, str], bool] = lambda _handler, _name: False
        server = self

        class Handler(BaseHTTPRequestHandler):
            """Answers a request."""

            def handle_any(self) -> None:
                server.asked.append((self.command, self.path, dict(self.headers)))
                name = PATHS.get(urlsplit(self.path).path, "")
                if server.act(self, name):
                    return
                body = json.dumps(server.answers.get(name, matrix())).encode()
                self.send_response(200)
                self.send_header("Content-Length", str(len(body)))
                self.end_headers()
                self.wfile.write(body)

            do_GET = do_POST = do_PUT = do_HEAD = do_DELETE = handle_any

            def log_message(self, *_: object) -> None:
                pass

        self.listener = ThreadingHTTPServer(("127.0.0.1", 0), Handler)
        threading.Thread(target=self.listener.serve_forever, daemon=True).start()

    @property
    def url(self) -> str:
        """The URL of the server."""
        return f"http://127.0.0.1:{self.listener.server_address[1]}"

    def close(self) -> None:
        """Ends the server."""
        self.listener.shutdown()
        self.listener.server_close()
