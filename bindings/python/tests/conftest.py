import os

import pytest

from makhloeum import mounted_at

pytest_plugins = ["makhloeum.pytest_plugin"]


@pytest.fixture
def at_cgroup():
    """A hierarchy with the group /a in the place of /sys/fs/cgroup."""
    with mounted_at("/sys/fs/cgroup") as hierarchy:
        os.mkdir("/sys/fs/cgroup/a")
        yield hierarchy
