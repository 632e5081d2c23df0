"""A browser driven over the WebDriver protocol, by the standard library alone."""
import base64
import json
import os
import re
import subprocess
import time
import urllib.error
import urllib.request

KEYS = {'up': '\ue013', 'down': '\ue015', 'left': '\ue012', 'right': '\ue014', 'escape': '\ue00c', 'enter': '\ue007', 'tab': '\ue004', 'shift': '\ue008'}
# The name under which the protocol gives an element.
ELEMENT = 'element-6066-11e4-a52e-4f735466cecf'


class Browser:
    def __init__(self, width=1440, height=900, reduced=False):
        self.session = ''
        self.driver = subprocess.Popen(['chromedriver', '--port=0'], stdout=subprocess.PIPE, stderr=subprocess.DEVNULL, text=True)
        for line in self.driver.stdout:
            found = re.search(r'successfully on port (\d+)', line)
            if found:
                self.port = int(found[1])
                break
        else:
            raise RuntimeError('chromedriver did not start')
        flags = ['--headless=new', '--disable-gpu', '--no-first-run', '--disable-dev-shm-usage', '--force-device-scale-factor=1', '--window-size=%d,%d' % (width, height)]
        # (a browser run as root has no sandbox of its own)
        flags += ['--no-sandbox'] * (os.geteuid() == 0) + ['--force-prefers-reduced-motion'] * reduced
        wanted = {'goog:chromeOptions': {'args': flags}, 'goog:loggingPrefs': {'browser': 'ALL'}, 'timeouts': {'script': 60000}}
        self.session = '/session/' + self.ask('POST', '/session', {'capabilities': {'alwaysMatch': wanted}})['sessionId']

    def ask(self, method, path, words=None):
        request = urllib.request.Request('http://127.0.0.1:%d%s%s' % (self.port, self.session, path), method=method,
                                         data=json.dumps(words or {}).encode() if method == 'POST' else None)
        try:
            with urllib.request.urlopen(request, timeout=120) as answer:
                return json.load(answer)['value']
        except urllib.error.HTTPError as error:
            raise RuntimeError(json.load(error)['value']['message'].splitlines()[0]) from None

    def go(self, address):
        self.ask('POST', '/url', {'url': address})

    def run(self, script, *words):
        return self.ask('POST', '/execute/sync', {'script': script, 'args': words})

    def run_until_told(self, script, *words):
        return self.ask('POST', '/execute/async', {'script': script, 'args': words})

    def wait(self, script, *words, seconds=60):
        """Until the script gives something true."""
        end = time.monotonic() + seconds
        while time.monotonic() < end:
            found = self.run(script, *words)
            if found:
                return found
            time.sleep(0.05)
        raise AssertionError('nothing came in %d seconds of: %s' % (seconds, script))

    def acts(self, kind, *actions, **words):
        self.ask('POST', '/actions', {'actions': [{'type': kind, 'id': kind, 'actions': list(actions), **words}]})

    def click(self, x, y):
        self.acts('pointer', {'type': 'pointerMove', 'duration': 0, 'x': round(x), 'y': round(y)}, {'type': 'pointerDown', 'button': 0}, {'type': 'pointerUp', 'button': 0})

    def hover(self, x, y):
        self.acts('pointer', {'type': 'pointerMove', 'duration': 0, 'x': round(x), 'y': round(y)})

    def press(self, *keys):
        """One key, or several held together."""
        words = [KEYS.get(it, it) for it in keys]
        self.acts('key', *({'type': 'keyDown', 'value': it} for it in words), *({'type': 'keyUp', 'value': it} for it in reversed(words)))

    def choose_file(self, place, name):
        element = self.ask('POST', '/element', {'using': 'css selector', 'value': place})[ELEMENT]
        self.ask('POST', '/element/%s/value' % element, {'text': name})

    def size(self, width, height):
        self.ask('POST', '/window/rect', {'width': width, 'height': height})

    def picture(self):
        return base64.b64decode(self.ask('GET', '/screenshot'))

    def complaints(self):
        """What the browser has logged since it was asked last, refusals of a fetch left out."""
        return [it['message'] for it in self.ask('POST', '/se/log', {'type': 'browser'}) if it['level'] in ('SEVERE', 'WARNING') and 'status of' not in it['message'] and 'willReadFrequently' not in it['message']]

    def close(self):
        try:
            if self.session:
                self.ask('DELETE', '')
        except Exception:
            pass
        finally:
            self.driver.terminate()
            self.driver.wait(10)
