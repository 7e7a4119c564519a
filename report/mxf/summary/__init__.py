"""The summary of a recording for a terminal."""
