"""`amreplay page`: one self-contained page of an incident, made of what sessions of the program answer."""

from .cli import main

__all__ = ["main"]
