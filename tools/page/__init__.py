"""The parts of tools/inspect: the programs and their text, the recordings that are open, the page and its server."""
