"""Where the answers of the APIs come from: a server, which is sent nothing but GET, or a folder of saved responses."""

from __future__ import annotations

import http.client
import urllib.error
import urllib.parse
import urllib.request
from dataclasses import dataclass, field
from pathlib import Path
from typing import Any, Mapping, Union

from .faults import fault, one_line, time_limit

SECONDS_AT_MOST = 120
BYTES_AT_MOST = 64 * 1024 * 1024
TOTAL_BYTES_AT_MOST = 1024 * 1024 * 1024
CREDENTIAL_AT_LEAST = 6
SECRET_NAMES = ("auth", "cookie", "token", "key", "secret", "password", "credential", "signature")


class TooLarge(Exception):
    """An answer with more bytes than a capture reads, or that the server itself refuses for its size."""


@dataclass(frozen=True)
class Headers:
    """The headers of a file, which go with each request and into no output."""

    values: Mapping[str, str] = field(default_factory=dict)

    @staticmethod
    def read(path: str) -> Headers:
        """Reads lines such as `Authorization: Bearer ..`. A fault names the line, and never what is in it."""
        try:
            text = Path(path).read_text("ascii")
        except OSError as error:
            raise fault(f"cannot read {path}: {error.strerror}") from None
        except UnicodeDecodeError:
            raise fault(f"{path}: a header that isn't ASCII") from None
        values: dict[str, str] = {}
        for number, line in enumerate(text.splitlines(), 1):
            name, colon, value = line.partition(":")
            if not line.strip():
                continue
            if not colon or not name.replace("-", "").replace("_", "").isalnum() or not value.strip().isprintable():
                raise fault(f"{path}: line {number} isn't a header such as Authorization: Bearer ..")
            values[name] = value.strip()
        return Headers(values)

    def repeated_in(self, body: bytes) -> bool:
        """Returns whether an answer repeats a credential."""
        return any(secret.encode() in body for secret in self._secrets())

    def _secrets(self) -> list[str]:
        kept = [value for name, value in self.values.items() if any(word in name.lower() for word in SECRET_NAMES)]
        parts = [part for value in kept for part in (value, value.split()[-1])]
        return [part for part in parts if len(part) >= CREDENTIAL_AT_LEAST]


class _NoRedirect(urllib.request.HTTPRedirectHandler):
    """Follows no redirect, since the headers would go to where it leads."""

    def redirect_request(self, *_: Any) -> None:
        return None


@dataclass
class HttpServer:
    """A server with an API, and how many bytes it has answered. It keeps each answer in a folder if it has one."""

    url: str
    headers: Headers
    kept: Path | None = None
    received: int = 0

    @property
    def name(self) -> str:
        return self.url

    def get(self, name: str, path: str, query: Mapping[str, str] | None = None) -> bytes:
        """Returns the body of an answer. The name is that of its file in a folder of responses."""
        url = self.url.rstrip("/") + path + ("?" + urllib.parse.urlencode(query) if query else "")
        with time_limit(SECONDS_AT_MOST, f"{self.name}{path}: no whole answer within {SECONDS_AT_MOST} seconds"):
            body = self._body(url, path)
        self.received += len(body)
        if self.received > TOTAL_BYTES_AT_MOST:
            raise fault(f"{self.name}: more than {TOTAL_BYTES_AT_MOST} bytes of answers; ask for a shorter span")
        if self.headers.repeated_in(body):
            raise fault(f"{self.name}{path}: the answer repeats a credential of the header file; nothing is written")
        if self.kept is not None:
            self.kept.mkdir(parents=True, exist_ok=True)
            (self.kept / f"{name}.json").write_bytes(body)
        return body

    def _body(self, url: str, path: str) -> bytes:
        opener = urllib.request.build_opener(_NoRedirect)
        request = urllib.request.Request(url, headers=dict(self.headers.values), method="GET")
        try:
            with opener.open(request, timeout=SECONDS_AT_MOST) as answer:
                body: bytes = answer.read(BYTES_AT_MOST + 1)
                is_cut = len(body) <= BYTES_AT_MOST and bool(answer.length)
        except urllib.error.HTTPError as error:
            raise self._refused(error, path) from None
        except (OSError, http.client.HTTPException, ValueError) as error:
            raise fault(f"{self.name}{path}: {_reason(error)}") from None
        if len(body) > BYTES_AT_MOST:
            raise TooLarge
        if is_cut:
            raise fault(f"{self.name}{path}: the answer ends early")
        return body

    def _refused(self, error: urllib.error.HTTPError, path: str) -> Exception:
        """Returns why a server refused, with what it says, unless that repeats a credential."""
        said = b""
        try:
            said = error.read(2_000)
        except (OSError, http.client.HTTPException):
            pass
        if error.code == 422 and b"too many samples" in said:
            return TooLarge()
        if 300 <= error.code < 400:
            return fault(
                f"{self.name}{path}: the server redirects, which isn't followed; give the URL that it leads to"
            )
        shown = (
            "" if self.headers.repeated_in(said) else f": {one_line(said.decode('utf-8', 'replace'))}" if said else ""
        )
        return fault(f"{self.name}{path}: status {error.code}{shown}")


def _reason(error: Exception) -> str:
    inner = getattr(error, "reason", None)
    if isinstance(inner, OSError):
        error = inner
    if isinstance(error, http.client.IncompleteRead):
        return "the answer ends early"
    if isinstance(error, TimeoutError):
        return f"no answer within {SECONDS_AT_MOST} seconds"
    return (error.strerror if isinstance(error, OSError) else None) or type(error).__name__


@dataclass(frozen=True)
class SavedServer:
    """A folder of saved responses of one server."""

    folder: Path

    @property
    def name(self) -> str:
        return str(self.folder)

    def has(self, name: str) -> bool:
        """Returns whether there is a response of a name."""
        return (self.folder / f"{name}.json").is_file()

    def get(self, name: str, path: str, query: Mapping[str, str] | None = None) -> bytes:
        """Returns a response that was saved of a path."""
        file = self.folder / f"{name}.json"
        if not file.is_file():
            raise fault(f"there is no {file}; save GET {path} there")
        return _file_bytes(file)

    def all(self, name: str) -> list[bytes]:
        """Returns the responses whose names begin so, in order."""
        return [_file_bytes(file) for file in sorted(self.folder.glob(f"{name}*.json"))]


Server = Union[HttpServer, SavedServer]


def _file_bytes(file: Path) -> bytes:
    try:
        if file.stat().st_size > BYTES_AT_MOST:
            raise fault(f"{file}: more than {BYTES_AT_MOST} bytes")
        return file.read_bytes()
    except OSError as error:
        raise fault(f"cannot read {file}: {error.strerror}") from None


def url_of(text: str) -> str:
    """Returns the URL of a server. Raises ValueError for one that isn't plain http or https."""
    parts = urllib.parse.urlsplit(text)
    if parts.scheme not in ("http", "https") or not parts.hostname:
        raise ValueError("a URL such as http://prometheus:9090")
    if parts.username is not None or parts.password is not None:
        raise ValueError("a URL without user and password; put them in a header file")
    if parts.query or parts.fragment:
        raise ValueError("a URL without ? and #")
    return text
