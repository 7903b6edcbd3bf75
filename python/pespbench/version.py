"""The version, whose number is only in the file VERSION. `+unreleased` means that more has changed since."""

from __future__ import annotations

from pathlib import Path

VERSION = Path(__file__).with_name("VERSION").read_text(encoding="ascii").strip()
