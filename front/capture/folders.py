"""Folders that appear whole, or not at all."""

from __future__ import annotations

import os
import tempfile
from contextlib import contextmanager
from pathlib import Path
from typing import Iterator

from .faults import fault


def free_folder(text: str) -> Path:
    """Returns the path of a folder that isn't there yet, or is empty."""
    path = Path(text)
    try:
        if path.exists() and (not path.is_dir() or any(path.iterdir())):
            raise fault(f"{path} is there already; name a new folder", 2)
    except (OSError, ValueError) as error:
        raise fault(f"cannot write {path}: {getattr(error, 'strerror', None) or error}") from None
    return path


@contextmanager
def appearing(folder: Path) -> Iterator[Path]:
    """Gives a folder to write to, beside the place where it appears if the block ends well."""
    try:
        folder.parent.mkdir(parents=True, exist_ok=True)
        with tempfile.TemporaryDirectory(prefix=f".{folder.name}-", dir=folder.parent) as room:
            beside = Path(room) / folder.name
            beside.mkdir()
            yield beside
            os.replace(beside, folder)
    except OSError as error:
        raise fault(f"cannot write {folder}: {error.strerror}") from None
