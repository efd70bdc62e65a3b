"""The suite: `pytest` at the root runs it; CONTRIBUTING.md describes how a case is added."""
