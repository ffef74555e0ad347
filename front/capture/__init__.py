"""`./amreplay capture`: makes CONFIG and SCRIPT from what a Prometheus and an Alertmanager have kept."""

from .cli import main

__all__ = ["main"]
