"""A real Prometheus, twice, and a real Alertmanager on loopback, with what they scrape and whom they notify."""

from __future__ import annotations

import json
import os
import socket
import subprocess
import sys
import threading
import time
import urllib.request
from datetime import datetime, timezone
from http.server import BaseHTTPRequestHandler, ThreadingHTTPServer
from pathlib import Path
from typing import Any

RULES = """\
groups:
  - name: hosts
    interval: 2s
    rules:
      - alert: HostDown
        expr: down == 1
        labels: {severity: critical}
        annotations: {summary: 'host {{ $labels.host }} is down', runbook: 'http://wiki/down'}
      - alert: HostSlow
        expr: slow == 1
        for: 5s
        labels: {severity: warning}
        annotations: {summary: 'slow by {{ $value }}'}
  - name: codes
    interval: 3s
    rules:
      - alert: ManyErrors
        expr: code500 == 1
        labels: {code: 500, severity: critical}
"""
PROMETHEUS = """\
global:
  scrape_interval: 1s
  evaluation_interval: 2s
  external_labels: {{cluster: live, replica: {replica}}}
rule_files: [rules.yml]
alerting:
  alert_relabel_configs:
    - {{regex: replica|instance|job, action: labeldrop}}
    - {{source_labels: [host], regex: 'h([1-4])', target_label: team, replacement: 'team-$1'}}
  alertmanagers:
    - static_configs: [{{targets: ['127.0.0.1:{posts}']}}]
scrape_configs:
  - {{job_name: prometheus, static_configs: [{{targets: ['127.0.0.1:{own}']}}]}}
  - {{job_name: alertmanager, static_configs: [{{targets: ['127.0.0.1:{alertmanager}']}}]}}
  - {{job_name: hosts, static_configs: [{{targets: ['127.0.0.1:{target}']}}]}}
"""
ALERTMANAGER = """\
global: {{resolve_timeout: 1m}}
route:
  receiver: on
  group_by: [alertname, cluster]
  group_wait: 3s
  group_interval: 7s
  repeat_interval: 25s
  routes:
    - {{match: {{code: 500}}, receiver: errors, group_by: [code], group_wait: 2s, group_interval: 5s, repeat_interval: 31s}}
    - {{matchers: ['alertname = HostSlow'], receiver: slow, continue: true}}
    - {{matchers: ['alertname = HostSlow'], receiver: never, active_time_intervals: [long ago]}}
inhibit_rules:
  - {{source_matchers: ['severity = critical'], target_matchers: ['severity = warning'], equal: [host]}}
receivers:
  - {{name: on, webhook_configs: [{{url: 'http://127.0.0.1:{webhook}/on'}}]}}
  - {{name: errors, webhook_configs: [{{url: 'http://127.0.0.1:{webhook}/errors'}}]}}
  - {{name: slow, webhook_configs: [{{url: 'http://127.0.0.1:{webhook}/slow', send_resolved: false}}]}}
  - {{name: never, webhook_configs: [{{url: 'http://127.0.0.1:{webhook}/never'}}]}}
time_intervals:
  - {{name: long ago, time_intervals: [{{years: ['2001'], times: [{{start_time: 09:00, end_time: 17:00}}], location: Europe/Paris}}]}}
"""


class Target:
    """What the hosts say of themselves, as a page of metrics."""

    def __init__(self) -> None:
        self.values: dict[tuple[str, str], int] = {}

    def set(self, name: str, host: str, value: int) -> None:
        """Changes what a host says from now on."""
        self.values[name, host] = value

    def page(self) -> str:
        """Returns the metrics."""
        return "".join(f'{name}{{host="{host}"}} {value}\n' for (name, host), value in list(self.values.items()))


class Servers:
    """All the processes and listeners. Leaving the context ends them."""

    def __init__(self, room: Path, kept: Path, is_aligned: bool) -> None:
        self.room, self.is_aligned = room, is_aligned
        self.webhooks, self.posts = kept / "webhooks.jsonl", kept / "posts.jsonl"
        self.target = Target()
        self.lock = threading.Lock()
        self.listeners: list[ThreadingHTTPServer] = []
        self.processes: dict[str, subprocess.Popen[bytes]] = {}
        self.ports = {name: _free_port() for name in ("p0", "p1", "alertmanager")}

    @property
    def prometheus_urls(self) -> list[str]:
        """The URLs of the two replicas."""
        return [f"http://127.0.0.1:{self.ports[name]}" for name in ("p0", "p1")]

    @property
    def alertmanager_url(self) -> str:
        """The URL of the Alertmanager."""
        return f"http://127.0.0.1:{self.ports['alertmanager']}"

    def __enter__(self) -> Servers:
        try:
            self._listen()
            self._start_alertmanager()
            for number in (0, 1):
                self._start_prometheus(number)
        except BaseException:
            self.__exit__()
            raise
        return self

    def __exit__(self, *_: object) -> None:
        for process in self.processes.values():
            process.terminate()
        for process in self.processes.values():
            process.wait()
        for listener in self.listeners:
            listener.shutdown()
            listener.server_close()

    def restart_prometheus(self, number: int) -> None:
        """Ends one replica, and starts it again on what it has kept."""
        process = self.processes[f"p{number}"]
        process.terminate()
        process.wait()
        self._start_prometheus(number)

    def restart_both(self) -> None:
        """Ends both replicas, and starts them again three seconds later."""
        for name in ("p0", "p1"):
            self.processes[name].terminate()
            self.processes[name].wait()
        time.sleep(3)
        for number in (0, 1):
            self._start_prometheus(number)

    def post_silence(self, body: dict[str, Any]) -> None:
        """Posts a silence."""
        self._ask("/api/v2/silences", body)

    def post_alerts(self, body: list[dict[str, Any]]) -> None:
        """Posts alerts, as a sender other than Prometheus."""
        self._ask("/api/v2/alerts", body)

    def expire_silences(self, comment: str) -> None:
        """Ends the active silences with a comment."""
        for silence in json.loads(self._ask("/api/v2/silences")):
            if silence["comment"] == comment and silence["status"]["state"] == "active":
                self._ask(f"/api/v2/silence/{silence['id']}", method="DELETE")

    def _ask(self, path: str, body: object = None, method: str | None = None) -> bytes:
        data = body if body is None or isinstance(body, bytes) else json.dumps(body).encode()
        request = urllib.request.Request(
            self.alertmanager_url + path, data, {"Content-Type": "application/json"}, method=method
        )
        with urllib.request.urlopen(request, timeout=10) as answer:
            found: bytes = answer.read()
            return found

    def _listen(self) -> None:
        servers = self

        class Metrics(BaseHTTPRequestHandler):
            """Answers a scrape."""

            def do_GET(self) -> None:
                self.send_response(200)
                self.end_headers()
                self.wfile.write(servers.target.page().encode())

            def log_message(self, *_: object) -> None:
                pass

        class Logged(Metrics):
            """Logs a body, with the moment at which it arrives."""

            def do_POST(self) -> None:
                at = datetime.now(timezone.utc).isoformat()
                data = self.rfile.read(int(self.headers["Content-Length"]))
                self.pass_on(data)
                self.send_response(200)
                self.end_headers()
                with servers.lock, open(self.log, "a", encoding="utf-8") as log:
                    log.write(json.dumps({"receivedAt": at, "body": json.loads(data)}) + "\n")

            log: Path

            def pass_on(self, data: bytes) -> None:
                pass

        class Webhook(Logged):
            """Stands for a receiver."""

            log = servers.webhooks

        class Posts(Logged):
            """Stands between Prometheus and Alertmanager."""

            log = servers.posts

            def pass_on(self, data: bytes) -> None:
                servers._ask("/api/v2/alerts", data)

        for log in (self.webhooks, self.posts):
            log.touch()
        self.ports["target"] = self._serve(Metrics)
        self.ports["webhook"] = self._serve(Webhook)
        self.ports["posts"] = self._serve(Posts)

    def _serve(self, handler: type[BaseHTTPRequestHandler]) -> int:
        listener = ThreadingHTTPServer(("127.0.0.1", 0), handler)
        self.listeners.append(listener)
        threading.Thread(target=listener.serve_forever, daemon=True).start()
        return int(listener.server_address[1])

    def _start_alertmanager(self) -> None:
        config = self.room / "alertmanager.yml"
        config.write_text(ALERTMANAGER.format(**self.ports))
        self._start("alertmanager", "prometheus-alertmanager", [
            f"--config.file={config}", f"--storage.path={self.room}/alertmanager", "--cluster.listen-address=",
            f"--web.listen-address=127.0.0.1:{self.ports['alertmanager']}",
        ])  # fmt: skip
        self._wait_for(self.alertmanager_url + "/-/ready")
        if self.is_aligned:
            # It removes empty groups each half minute from its last reload.
            time.sleep(30 - time.time() % 30)
            self._ask("/-/reload", b"")

    def _start_prometheus(self, number: int) -> None:
        folder = self.room / f"prometheus-{number}"
        folder.mkdir(exist_ok=True)
        (folder / "rules.yml").write_text(RULES)
        config = PROMETHEUS.format(replica="ab"[number], own=self.ports[f"p{number}"], **self.ports)
        (folder / "prometheus.yml").write_text(config)
        self._start(f"p{number}", "prometheus", [
            f"--config.file={folder}/prometheus.yml", f"--storage.tsdb.path={folder}/data",
            f"--web.listen-address=127.0.0.1:{self.ports[f'p{number}']}", "--rules.alert.resend-delay=5s",
        ])  # fmt: skip
        self._wait_for(self.prometheus_urls[number] + "/-/ready")

    def _start(self, name: str, program: str, words: list[str]) -> None:
        with open(self.room / f"{name}.log", "ab") as log:
            try:
                self.processes[name] = subprocess.Popen([program, *words], stdout=log, stderr=log, env={**os.environ})
            except FileNotFoundError:
                sys.exit(
                    f"tests/live: there is no {program}; Debian's packages prometheus and prometheus-alertmanager have it"
                )

    def _wait_for(self, url: str) -> None:
        for _ in range(300):
            try:
                with urllib.request.urlopen(url, timeout=5):
                    return
            except OSError:
                time.sleep(0.1)
        sys.exit(f"tests/live: no answer from {url}")


def _free_port() -> int:
    with socket.socket() as probe:
        probe.bind(("127.0.0.1", 0))
        return int(probe.getsockname()[1])
