"""A browser without a window: Chromium by selenium, for the check and the figures of the page."""
import base64
import importlib.util
import os
import shutil
import sys
import time
from pathlib import Path

DEBIAN = "/usr/bin/python3"  # it has Debian's selenium, where another python3 stands before it
# The mean difference of two pictures' pixels, by the browser's own canvas.
COMPARE = """
const [one, other, done] = arguments;
const pixels = async text => {
  const image = new Image();
  image.src = 'data:image/png;base64,' + text;
  await image.decode();
  const canvas = Object.assign(document.createElement('canvas'), { width: image.width, height: image.height });
  canvas.getContext('2d').drawImage(image, 0, 0);
  return [image.width, image.height, canvas.getContext('2d').getImageData(0, 0, image.width, image.height).data];
};
Promise.all([pixels(one), pixels(other)]).then(([[w, h, a], [v, g, b]]) => {
  let sum = 0;
  for (let at = 0; at < a.length; at += 1) sum += Math.abs(a[at] - b[at]);
  done(w === v && h === g ? sum / (w * h * 3) : 255);
}, () => done(255));
"""


def lacking() -> str:
    """What isn't there, in words; nothing where all is. Where Debian's python3 alone has selenium, it goes on with this script."""
    for name in ("chromium", "chromedriver"):
        if shutil.which(name) is None:
            return f"{name} isn't there and can't be installed here"
    if importlib.util.find_spec("selenium"):
        return ""
    if os.path.exists(DEBIAN) and os.path.realpath(sys.executable) != os.path.realpath(DEBIAN):
        os.execv(DEBIAN, [DEBIAN, *sys.argv])
    return "selenium isn't there and can't be installed here"


class Browser:
    """A page in a browser of a given size."""

    def __init__(self, width: int, height: int) -> None:
        from selenium import webdriver
        from selenium.webdriver.chrome.service import Service
        options = webdriver.ChromeOptions()
        for word in ("--no-sandbox", "--headless=new", "--disable-gpu", "--force-device-scale-factor=1", f"--window-size={width},{height}"):
            options.add_argument(word)
        options.binary_location = shutil.which("chromium")
        options.set_capability("goog:loggingPrefs", {"browser": "ALL"})
        self.driver = webdriver.Chrome(options=options, service=Service(shutil.which("chromedriver")))
        self.driver.execute_cdp_cmd("Emulation.setDeviceMetricsOverride",
                                    {"width": width, "height": height, "deviceScaleFactor": 1, "mobile": False})
        self.driver.execute_cdp_cmd("Emulation.setEmulatedMedia", {"features": [{"name": "prefers-color-scheme", "value": "light"}]})
        self.driver.set_script_timeout(60)

    def __enter__(self):
        return self

    def __exit__(self, *_) -> None:
        self.driver.quit()

    def open(self, page: Path) -> float:
        """Opens a file, and waits for its first drawn frame: the ms from the navigation to it."""
        self.driver.get(page.resolve().as_uri())
        for _ in range(600):
            drawn = self.run("return window.hosttrace ? hosttrace.drawn() : 0")
            if drawn:
                return drawn
            time.sleep(0.05)
        raise TimeoutError(f"{page} draws nothing")

    def run(self, script: str, *arguments):
        return self.driver.execute_script(script, *arguments)

    def wait(self, script: str, *arguments):
        """Runs a script that calls its last argument when it is done."""
        return self.driver.execute_async_script(script, *arguments)

    def hook(self, call: str):
        return self.run(f"return hosttrace.{call}")

    def text(self, name: str) -> str:
        """The text that an element shows."""
        return self.run("return document.getElementById(arguments[0]).innerText", name)

    def console(self) -> list:
        return [it["message"] for it in self.driver.get_log("browser")]

    def click(self, selector: str) -> None:
        self.driver.find_element("css selector", selector).click()

    def actions(self):
        from selenium.webdriver.common.action_chains import ActionChains
        return ActionChains(self.driver, duration=20)

    def keys(self, keys: str) -> None:
        """Presses keys on the lanes."""
        self.driver.find_element("id", "scroll").send_keys(keys)

    def type(self, keys: str) -> None:
        """Presses keys on what has the focus."""
        self.driver.switch_to.active_element.send_keys(keys)

    def point(self, place: dict) -> None:
        chain = self.actions()
        chain.w3c_actions.pointer_action.move_to_location(round(place["x"]), round(place["y"]))
        chain.perform()

    def drag(self, one: dict, other: dict) -> None:
        chain = self.actions()
        pointer = chain.w3c_actions.pointer_action
        pointer.move_to_location(round(one["x"]), round(one["y"]))
        pointer.pointer_down()
        pointer.move_to_location(round((one["x"] + other["x"]) / 2), round(one["y"]))
        pointer.move_to_location(round(other["x"]), round(other["y"]))
        pointer.pointer_up()
        chain.perform()

    def wheel(self, place: dict, down: int, control: bool = False, shift: bool = False) -> None:
        self.driver.execute_cdp_cmd("Input.dispatchMouseEvent", {"type": "mouseWheel", "x": place["x"], "y": place["y"], "deltaX": 0,
                                                                 "deltaY": down, "modifiers": 2 * control + 8 * shift})

    def picture(self) -> bytes:
        return base64.b64decode(self.driver.get_screenshot_as_base64())

    def difference(self, one: bytes, other: bytes) -> float:
        """The mean difference of two pictures, from 0 to 255; 255 where they differ in size."""
        self.driver.get("about:blank")
        return self.wait(COMPARE, *(base64.b64encode(it).decode() for it in (one, other)))
