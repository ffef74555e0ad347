"""The story of a script under a configuration: who was notified when, who wasn't, and why, as the program answers."""

from .build import story_of
from .model import AlertStory, First, Firing, Mark, Pairs, Row, Sent, SilenceStory, Span, Story

__all__ = ["AlertStory", "First", "Firing", "Mark", "Pairs", "Row", "Sent", "SilenceStory", "Span", "Story", "story_of"]
