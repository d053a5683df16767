"""The parts of rulebook.py: what it reads of the sources and of docs/RULES.md, and the page."""
