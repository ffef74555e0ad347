"""Reads `alertmanager.yml`, or the same tree as JSON, into the JSON that the program reads."""
