"""Pages in a browser for the tests."""

import pytest
from demo import demo
from support import page_of
from webdriver import Browser


@pytest.fixture(scope="module")
def browser():
    made = Browser()
    yield made
    made.close()


@pytest.fixture(scope="module")
def pages(tmp_path_factory):
    """The address of the page of a trace."""
    folder, made = tmp_path_factory.mktemp("pages"), {}

    def address(name, trace):
        if name not in made:
            file = folder / f"{name}.html"
            file.write_text(page_of(trace, f"{name}.trace"))
            made[name] = file.as_uri()
        return made[name]

    return address


@pytest.fixture
def shown(browser, pages):
    """The demo's page at a moment."""

    def show(moment=0):
        browser.open("about:blank")
        browser.open(f"{pages('demo', demo())}#line={moment}")
        return browser

    yield show
    assert browser.complaints() == []
