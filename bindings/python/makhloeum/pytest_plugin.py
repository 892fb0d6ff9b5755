"""The pytest fixture `hierarchy`: a cgroup hierarchy that begins each test with only the root.

An installed package brings the fixture with it. Otherwise a conftest.py says: pytest_plugins = ["makhloeum.pytest_plugin"]
"""

from makhloeum_pytest import hierarchy

__all__ = ["hierarchy"]
