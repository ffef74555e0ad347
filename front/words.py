"""The words of the front: what each does, and where its `main(arguments) -> status` is."""

from __future__ import annotations

import importlib
from dataclasses import dataclass
from typing import Callable, cast

from .program import TOP

Main = Callable[[list[str]], int]


@dataclass(frozen=True)
class Word:
    """A word: the module that has its `main`, and one line for the help."""

    module: str
    summary: str


# Where a word's `main` is, if not in the module of its name.
MODULES = {"lint": "front.lint.word"}


def _listed(answerer: str) -> dict[str, Word]:
    """Returns the words of the front, or the forms of the program, as the list of all words has them."""
    lines = (TOP / "words.txt").read_text("utf-8").splitlines()
    listed = [line.split(None, 2) for line in lines if line and not line.startswith("#")]
    return {word: Word(MODULES.get(word, f"front.{word}"), does) for who, word, does in listed if who == answerer}


WORDS = _listed("front")
FORMS = tuple(_listed("program"))


def load(word: str) -> Main:
    """Returns the `main` of a word, or the function of a form. Its module is loaded now, and those of other words are not."""
    if word in FORMS:
        return cast(Main, getattr(importlib.import_module("front.forms"), word))
    return cast(Main, importlib.import_module(WORDS[word].module).main)


def usage() -> str:
    """Returns the words with what each is for."""
    lines = [f"  {name:8}  {word.summary}" for name, word in WORDS.items()]
    return "\n".join(["usage: amreplay WORD ..; amreplay WORD --help says more", "", *lines])
