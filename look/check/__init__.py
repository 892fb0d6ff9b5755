"""makhloeum check DIR: compares a directory that claims to be a cgroup2 hierarchy with the engine."""

from .command import main

__all__ = ["main"]
