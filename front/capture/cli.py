"""The words of `./amreplay capture`, and what is done with them."""

from __future__ import annotations

import argparse
import sys
import time
from contextlib import nullcontext
from dataclasses import dataclass
from pathlib import Path

from ..arguments import parser_of
from ..config.cut import cut
from ..config.yaml_config import BadConfiguration, Reading, read_config
from ..config.zones import BadZone, in_utc
from ..moments import HOUR, length_of, nanoseconds
from ..progress import Progress
from .alertmanager import Alertmanager, alertmanager_of
from .assembly import Assembly, Span, assemble
from .faults import fault, time_limit
from .folders import appearing, free_folder
from .prometheus import prometheus_of
from .report import report
from .servers import Headers, HttpServer, SavedServer, Server, TooLarge, url_of

CONFIG_NAME, SCRIPT_NAME, REPORT_NAME = "config.json", "script.jsonl", "captured.md"
CONFIG_BYTES_AT_MOST = 1024 * 1024
SECONDS_AT_MOST = 120
LAST_MOMENT = nanoseconds("8999-12-31T23:59:59Z")


@dataclass
class Servers:
    """The servers that are asked, or the folders with their saved responses."""

    prometheus: list[Server]
    alertmanager: Server | None


def main(arguments: list[str]) -> int:
    """Makes the files that the words ask for, whole or not at all, and returns the status."""
    options = _options(arguments)
    span = _span(options)
    output = appearing(free_folder(options.output))
    kept = appearing(free_folder(options.keep_responses)) if options.keep_responses else nullcontext(None)
    with output as files, kept as responses:
        text = _make(files, _servers(options, responses), span, options.config)
    print(text, file=sys.stderr, end="")
    return 0


def _make(folder: Path, servers: Servers, span: Span, config: str | None) -> str:
    """Writes the files into a folder, and returns the report."""
    progress = Progress()
    try:
        assembly, reading = _captured(servers, span, config, progress)
    finally:
        progress.clear()
    text = report(assembly, reading)
    files = {CONFIG_NAME: reading.as_json(), SCRIPT_NAME: assembly.script(), REPORT_NAME: text.encode()}
    for name, data in files.items():
        (folder / name).write_bytes(data)
    return text


def _captured(servers: Servers, span: Span, config: str | None, progress: Progress) -> tuple[Assembly, Reading]:
    try:
        found = [prometheus_of(each, span.history, span.end, progress) for each in servers.prometheus]
        alertmanager = alertmanager_of(servers.alertmanager) if servers.alertmanager else None
    except TooLarge:
        raise fault("an answer of a server is too large") from None
    reading, zones = _configuration(config, alertmanager, span)
    return assemble(found, alertmanager, span, reading.value, zones), reading


def _configuration(file: str | None, alertmanager: Alertmanager | None, span: Span) -> tuple[Reading, list[str]]:
    """Returns the configuration as the program reads it, and the names of intervals that were written in UTC."""
    name, data = _configuration_bytes(file, alertmanager)
    try:
        with time_limit(SECONDS_AT_MOST, f"{name}: more than {SECONDS_AT_MOST} seconds to read"):
            reading = read_config(data)
            value, zones = in_utc(cut(reading.value), span.history, span.end)
    except (BadConfiguration, BadZone) as error:
        raise fault(f"{name}: {error}") from None
    reading = Reading(value, reading.lines, reading.unread)
    if len(reading.as_json()) > CONFIG_BYTES_AT_MOST:
        raise fault(
            f"{name}: more than {CONFIG_BYTES_AT_MOST} bytes as JSON, with {len(zones)} intervals written in UTC"
        )
    return reading, zones


def _configuration_bytes(file: str | None, alertmanager: Alertmanager | None) -> tuple[str, bytes]:
    if file:
        return file, _file(file)
    if alertmanager is None:
        raise fault("there is no Alertmanager among the responses; give the configuration with --config FILE", 2)
    return f"{alertmanager.name}/api/v2/status: config.original", alertmanager.config


def _file(path: str) -> bytes:
    try:
        return Path(path).read_bytes()
    except OSError as error:
        raise fault(f"cannot read {path}: {error.strerror}") from None


def _options(arguments: list[str]) -> argparse.Namespace:
    parser = parser_of(
        "capture",
        "Makes config.json, script.jsonl and a report from what a Prometheus and an Alertmanager have kept.",
        "docs/CAPTURE.md says what is asked, and how exact it is. Nothing but GET is sent.",
    )
    servers = parser.add_argument_group("where from")
    servers.add_argument("--prometheus", metavar="URL", action="append", default=[], help="a Prometheus; give each one")
    servers.add_argument("--alertmanager", metavar="URL", help="the Alertmanager")
    servers.add_argument("--responses", metavar="DIR", help="saved responses, in place of the two")
    servers.add_argument("--config", metavar="FILE", help="the alertmanager.yml that was in force")
    servers.add_argument("--header-file", metavar="FILE", help="headers to send, as lines NAME: VALUE")
    parser.add_argument(
        "--from", dest="start", metavar="MOMENT", required=True, help="2024-05-01T10:00:00Z, or with +02:00"
    )
    parser.add_argument("--to", dest="end", metavar="MOMENT", required=True, help="the end of the span")
    parser.add_argument("--history", metavar="LENGTH", default="6h", help="how much before --from is read too (6h)")
    parser.add_argument("--output", metavar="DIR", required=True, help="a new folder for the three files")
    parser.add_argument("--keep-responses", metavar="DIR", help="keep the answers in a new folder, for --responses")
    options = parser.parse_args(arguments)
    if options.responses and (
        options.prometheus or options.alertmanager or options.header_file or options.keep_responses
    ):
        parser.error("--responses takes the place of servers, --header-file and --keep-responses")
    if not options.responses and not options.alertmanager and not options.config:
        parser.error(
            "give --prometheus URL and --alertmanager URL, or --responses DIR, or the configuration with --config FILE"
        )
    if options.keep_responses and Path(options.keep_responses).resolve() == Path(options.output).resolve():
        parser.error("--keep-responses and --output are one folder")
    return options


def _span(options: argparse.Namespace) -> Span:
    start, end = (_moment(text, word) for text, word in ((options.start, "--from"), (options.end, "--to")))
    history = length_of(options.history)
    if history is None:
        raise fault(f"--history {options.history}: not a length such as 6h or 1d12h", 2)
    if end <= start:
        raise fault("--to isn't after --from", 2)
    if not options.responses and end > time.time_ns():
        raise fault(f"--to {options.end}: that is still to come", 2)
    return Span(max(start - history, HOUR), start, end)


def _moment(text: str, word: str) -> int:
    try:
        moment = nanoseconds(text)
    except ValueError:
        moment = -1
    if not HOUR < moment <= LAST_MOMENT:
        raise fault(f"{word} {text}: not a moment such as 2024-05-01T10:00:00Z or 2024-05-01T12:00:00+02:00", 2)
    return moment


def _servers(options: argparse.Namespace, kept: Path | None) -> Servers:
    if options.responses:
        return _saved_servers(Path(options.responses))
    headers = Headers.read(options.header_file) if options.header_file else Headers()
    urls = [_url(text) for text in options.prometheus]
    found: list[Server] = [
        HttpServer(url, headers, kept and kept / f"prometheus-{i + 1}") for i, url in enumerate(urls)
    ]
    if not options.alertmanager:
        return Servers(found, None)
    return Servers(found, HttpServer(_url(options.alertmanager), headers, kept and kept / "alertmanager"))


def _url(text: str) -> str:
    try:
        return url_of(text)
    except ValueError as error:
        raise fault(f"a server is given by {error}", 2) from None


def _saved_servers(folder: Path) -> Servers:
    """Returns the folders `prometheus..` and `alertmanager` within a folder of responses."""
    if not folder.is_dir():
        raise fault(f"there is no folder {folder}", 2)
    found: list[Server] = [SavedServer(each) for each in sorted(folder.glob("prometheus*")) if each.is_dir()]
    alertmanager = folder / "alertmanager"
    if not found and not alertmanager.is_dir():
        raise fault(f"{folder} has neither a folder prometheus nor a folder alertmanager", 2)
    return Servers(found, SavedServer(alertmanager) if alertmanager.is_dir() else None)
