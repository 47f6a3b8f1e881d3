"""The page in a browser, for the trials."""
import json, re
from selenium import webdriver
from selenium.webdriver.chrome.service import Service
from selenium.webdriver.common.by import By
from selenium.webdriver.support.ui import WebDriverWait
from office import TLS_PORT


class Page:
    """The page in a headless Chromium. Its screenshots are kept in a folder."""

    def __init__(self, folder):
        self.folder = folder
        options = webdriver.ChromeOptions()
        for word in ('--headless=new', '--no-sandbox', '--disable-dev-shm-usage', '--window-size=1200,1000'):
            options.add_argument(word)
        options.set_capability('acceptInsecureCerts', True)
        self.browser = webdriver.Chrome(service=Service('/usr/bin/chromedriver'), options=options)

    def open(self):
        self.browser.get(f'https://127.0.0.1:{TLS_PORT}/')

    def at(self, name):
        return self.browser.find_element(By.ID, name)

    def text(self):
        return self.at('answer').text

    def wait_until(self, holds, what):
        """Waits until something holds of the answer's text."""
        try:
            WebDriverWait(self.browser, 30, poll_frequency=0.2).until(lambda _: holds(self.text()))
        except Exception:
            raise SystemExit(f'expected {what}, got: {self.text()}')

    def wait(self, words):
        """Waits until the answer shows all these words."""
        self.wait_until(lambda text: all(word in text for word in words), words)

    def wait_for(self, pattern):
        """Waits until the answer has the pattern."""
        self.wait_until(lambda text: re.search(pattern, text), pattern)

    def press(self, name):
        self.at(name).click()

    def type_keys(self, *keys):
        """Types into what has the focus, as one does without a mouse."""
        for key in keys:
            self.browser.switch_to.active_element.send_keys(key)

    def paste(self, trip):
        self.open()
        self.browser.execute_script("document.getElementById('paste').open = true")
        self.browser.execute_script("document.getElementById('json').value = arguments[0]", json.dumps(trip))

    def fill(self, trip):
        self.paste(trip)
        self.at('fill').click()

    def audit(self, line):
        self.browser.execute_script("document.getElementById('line').value = arguments[0]", line)
        self.press('audit')

    def marked(self):
        return [field.get_attribute('name') or field.get_attribute('id')
                for field in self.browser.find_elements(By.CSS_SELECTOR, '.wrong')]

    def is_wide(self):
        """Whether the page is wider than the window."""
        return self.browser.execute_script('return document.documentElement.scrollWidth > window.innerWidth')

    def run(self, script, *words):
        """Runs a script in the page."""
        return self.browser.execute_script(script, *words)

    def keep(self, name):
        self.browser.set_window_size(1200, 600)
        height = self.browser.execute_script('return document.documentElement.scrollHeight')
        self.browser.set_window_size(1200, max(600, height + 140))
        self.folder.mkdir(exist_ok=True)
        self.browser.save_screenshot(str(self.folder / f'{name}.png'))
