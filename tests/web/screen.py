"""Pages in Chromium, and who uses them: what is needed is waited for, also where a page is left for another on a slow
machine, and nothing is sent twice."""
from __future__ import annotations

import contextlib
import shutil
from collections.abc import Callable, Iterator
from typing import TypeVar

import pytest
from selenium import webdriver
from selenium.common.exceptions import (
    ElementClickInterceptedException, ElementNotInteractableException, NoSuchElementException,
    StaleElementReferenceException, TimeoutException, WebDriverException,
)  # fmt: skip
from selenium.webdriver.chrome.options import Options
from selenium.webdriver.chrome.service import Service
from selenium.webdriver.common.by import By
from selenium.webdriver.remote.webelement import WebElement
from selenium.webdriver.support.ui import WebDriverWait

# so long something may take
SECONDS = 180
# how Chromium is begun, and how often: at load it may not answer its driver in time
WORDS = ("--headless=new", "--no-sandbox", "--disable-dev-shm-usage", "--window-size=1280,1000")
TRIES = 2
# where a step ends so, nothing was done
NOT_DONE = (
    NoSuchElementException, StaleElementReferenceException, ElementNotInteractableException,
    ElementClickInterceptedException,
)  # fmt: skip
# what a browser says of itself there
PHONE_BROWSER = "Mozilla/5.0 (Linux; Android 14; K) AppleWebKit/537.36 (KHTML, like Gecko) Mobile Safari/537.36"
PHONE = {"width": 390, "height": 844, "deviceScaleFactor": 1, "mobile": True}
IS_WHOLE = "document.readyState === 'complete'"
Value = TypeVar("Value")


@pytest.fixture(scope="session")
def chromium(request: pytest.FixtureRequest) -> Iterator[webdriver.Chrome]:
    driver, browser = shutil.which("chromedriver"), shutil.which("chromium")
    if not driver or not browser:
        told = "Chromium and its driver aren't here: as root `apt install chromium chromium-driver` on Debian"
        # the gate has it
        if request.config.getoption("--counts"):
            pytest.fail(told, pytrace=False)
        pytest.skip(told)
    found = begun(driver, browser)
    yield found
    # whatever its end comes to, all was seen
    with contextlib.suppress(WebDriverException):
        found.quit()


def begun(driver: str, browser: str, tries: int = TRIES) -> webdriver.Chrome:
    options, service = Options(), Service(driver)
    for word in WORDS:
        options.add_argument(word)
    options.binary_location = browser
    # the driver is asked itself
    options.ignore_local_proxy_environment_variables()
    try:
        return webdriver.Chrome(service=service, options=options)
    except WebDriverException:
        service.stop()
        if tries == 1:
            raise
    return begun(driver, browser, tries - 1)


class Screen:
    """The pages of a server on the screen of somebody who comes to it."""

    def __init__(self, chromium: webdriver.Chrome, base: str) -> None:
        self.chromium, self.base = chromium, base
        # nothing is left of whoever was here before, nor of what the browser found fault with then
        self.opens("about:blank")
        chromium.execute_cdp_cmd("Emulation.clearDeviceMetricsOverride", {})
        chromium.execute_cdp_cmd("Emulation.setUserAgentOverride", {"userAgent": ""})
        chromium.execute_cdp_cmd("Network.clearBrowserCookies", {})
        self.told()

    def becomes_small(self) -> None:
        """It is that of a telephone from now on."""
        self.chromium.execute_cdp_cmd("Emulation.setDeviceMetricsOverride", PHONE)
        self.chromium.execute_cdp_cmd("Emulation.setUserAgentOverride", {"userAgent": PHONE_BROWSER})

    def waits(self, find: Callable[[], Value | None], what: str) -> Value:
        """Waits until something is found, and answers it. A page that is being left can't be asked, and is asked again;
        so whatever is done to find it is as well done twice."""
        try:
            wait = WebDriverWait(self.chromium, SECONDS, 0.1, ignored_exceptions=(WebDriverException,))
            found: Value = wait.until(lambda _: find())
        except TimeoutException:
            raise AssertionError(f"{what} isn't there after {SECONDS} seconds, but {self.shown()}") from None
        return found

    def shown(self) -> str:
        """What is there now, for somebody who looks for a fault."""
        try:
            return f"{self.chromium.current_url} with {self.chromium.find_element(By.TAG_NAME, 'body').text!r}"
        except WebDriverException as error:
            return repr(error)

    def opens(self, address: str) -> None:
        """A page of the server, or of a whole address."""
        whole = f"{self.base}{address}" if address.startswith("/") else address

        def find() -> bool:
            self.chromium.get(whole)
            return True

        self.waits(find, address)

    def sees(self, text: str) -> None:
        self.waits(lambda: text in self.chromium.find_element(By.TAG_NAME, "body").text, repr(text))

    def reads(self, expression: str) -> object:
        """The value of an expression on a page that is whole."""

        def find() -> list[object] | None:
            is_whole, value = self.chromium.execute_script(f"return [{IS_WHOLE}, {expression}]")
            return [value] if is_whole else None

        return self.waits(find, expression)[0]

    def is_shown(self, expression: str, wanted: object) -> None:
        """What an expression comes to in the end."""
        self.waits(lambda: self.reads(expression) == wanted, f"{expression} as {wanted}")

    def there(self, path: str) -> WebElement:
        """What has a path and can be used, if it is there now."""
        found = self.chromium.find_element(By.XPATH, path)
        if not found.is_displayed() or not found.is_enabled():
            raise ElementNotInteractableException(path)
        return found

    def does(self, path: str, do: Callable[[WebElement], object]) -> None:
        """What is as well done twice."""

        def find() -> bool:
            do(self.there(path))
            return True

        self.waits(find, path)

    def writes(self, path: str, text: str) -> None:
        """In place of what stands there."""

        def find() -> bool:
            field = self.there(path)
            field.clear()
            field.send_keys(text)
            return bool(field.get_property("value") == text)

        self.waits(find, f"{path} with {text!r}")

    def leaves_by(self, path: str, do: Callable[[WebElement], object] = WebElement.click) -> None:
        """Does once what leads to another page, and waits for that page."""

        def left() -> WebElement | None:
            found = self.there(path)
            page = found.find_element(By.XPATH, "/html")
            try:
                do(found)
            except NOT_DONE:
                return None
            except WebDriverException:
                # it was done, if the page is left
                pass
            return page

        self.comes_behind(self.waits(left, path), path)

    def goes_back(self) -> None:
        page: WebElement = self.waits(self.page, "a page")
        with contextlib.suppress(WebDriverException):
            self.chromium.back()
        self.comes_behind(page, "this one")

    def page(self) -> WebElement:
        """The root of the page that is there, by which it is known."""
        return self.chromium.find_element(By.TAG_NAME, "html")

    def comes_behind(self, page: WebElement, what: str) -> None:
        def is_there() -> bool:
            return bool(self.page() != page and self.chromium.execute_script(f"return {IS_WHOLE}"))

        self.waits(is_there, f"the page behind {what}")

    def told(self) -> set[str]:
        """Of what the browser found fault with. It tells of most pages with a fault, not of each."""
        entries = self.chromium.get_log("browser")
        return {one["message"].removeprefix(self.base) for one in entries if one["level"] == "SEVERE"}
