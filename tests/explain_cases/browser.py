"""Chromium without a window, driven through its pipe: pages are opened, clicked, typed at and looked at."""
import base64, json, os, shutil, subprocess, tempfile, time


class Browser:
    def __init__(self):
        self.folder = tempfile.mkdtemp(prefix='explain-chromium-')
        to_read, self.to = os.pipe()
        self.from_, to_write = os.pipe()

        def ends():
            # its commands come on descriptor 3, and its answers go to descriptor 4
            one, two = os.dup(to_read), os.dup(to_write)
            os.dup2(one, 3)
            os.dup2(two, 4)
            os.set_inheritable(3, True)
            os.set_inheritable(4, True)

        self.run = subprocess.Popen(
            [
                shutil.which('chromium'),
                '--headless',
                '--no-sandbox',
                '--disable-gpu',
                '--no-first-run',
                '--disable-extensions',
                f'--user-data-dir={self.folder}',
                '--remote-debugging-pipe',
                'about:blank',
            ],
            preexec_fn=ends,
            close_fds=False,
            stdin=subprocess.DEVNULL,
            stdout=subprocess.DEVNULL,
            stderr=subprocess.DEVNULL,
        )
        os.close(to_read)
        os.close(to_write)
        self.number, self.kept, self.session, self.events = 0, b'', None, []
        target = self.ask('Target.createTarget', url='about:blank')['targetId']
        self.session = self.ask('Target.attachToTarget', targetId=target, flatten=True)['sessionId']
        self.ask('Page.enable')
        self.ask('Runtime.enable')

    def ask(self, method, **parameters):
        """Sends a command, and waits for its answer."""
        self.number += 1
        told = {
            'id': self.number,
            'method': method,
            'params': parameters,
            **({'sessionId': self.session} if self.session else {}),
        }
        os.write(self.to, json.dumps(told).encode() + b'\0')
        while True:
            answer = self.next()
            if answer.get('id') == self.number:
                if 'error' in answer:
                    raise RuntimeError(answer['error'])
                return answer['result']
            self.events.append(answer)

    def next(self):
        while b'\0' not in self.kept:
            read = os.read(self.from_, 1 << 20)
            if not read:
                raise RuntimeError('chromium has gone')
            self.kept += read
        one, _, self.kept = self.kept.partition(b'\0')
        return json.loads(one)

    def value(self, expression):
        """What an expression of the page's script is."""
        got = self.ask('Runtime.evaluate', expression=expression, returnByValue=True, awaitPromise=True)
        if 'exceptionDetails' in got:
            raise RuntimeError(got['exceptionDetails'])
        return got['result'].get('value')

    def size(self, width, height, dark=False):
        self.ask('Emulation.setDeviceMetricsOverride', width=width, height=height, deviceScaleFactor=1, mobile=False)
        self.ask(
            'Emulation.setEmulatedMedia',
            features=[{'name': 'prefers-color-scheme', 'value': 'dark' if dark else 'light'}],
        )

    def open(self, path):
        """Opens a file; the seconds until its script has run."""
        self.events, begun = [], time.monotonic()
        self.ask('Page.navigate', url='file://' + str(path).replace('%', '%25').replace('#', '%23').replace('?', '%3F'))
        while (
            self.value("document.readyState === 'complete' && document.body && document.body.dataset.ready === 'yes'")
            is not True
        ):
            if time.monotonic() - begun > 60:
                raise RuntimeError(f'the page is not ready: {self.complaints()}')
            time.sleep(0.02)
        return time.monotonic() - begun

    def complaints(self):
        """What the page's script complained of, and what it asked for from outside."""
        return [it for it in self.events if it.get('method') in ('Runtime.exceptionThrown', 'Runtime.consoleAPICalled')]

    def click(self, selector):
        """Clicks in the middle of an element, with a mouse."""
        place = self.value(
            f'(() => {{ const it = document.querySelector({json.dumps(selector)}); '
            'it.scrollIntoView({block: "center"}); '
            'const box = it.getBoundingClientRect(); return [box.x + box.width / 2, box.y + box.height / 2]; })()'
        )
        for kind in ('mousePressed', 'mouseReleased'):
            self.ask('Input.dispatchMouseEvent', type=kind, x=place[0], y=place[1], button='left', clickCount=1)

    def drag(self, selector, to):
        """Clicks an element at a share of its width, as on a slider."""
        x, y = self.value(
            f'(() => {{ const box = document.querySelector({json.dumps(selector)}).getBoundingClientRect(); '
            f'return [box.x + 8 + (box.width - 16) * {to}, box.y + box.height / 2]; }})()'
        )
        for kind in ('mousePressed', 'mouseReleased'):
            self.ask('Input.dispatchMouseEvent', type=kind, x=x, y=y, button='left', clickCount=1)

    def key(self, name, code=0):
        for kind in ('keyDown', 'keyUp'):
            self.ask(
                'Input.dispatchKeyEvent',
                type=kind,
                key=name,
                code=name,
                windowsVirtualKeyCode=code,
                **({'text': '\r'} if name == 'Enter' and kind == 'keyDown' else {}),
            )

    def picture(self, path):
        with open(path, 'wb') as file:
            file.write(base64.b64decode(self.ask('Page.captureScreenshot', format='png')['data']))

    def close(self):
        self.run.kill()
        self.run.wait()
        os.close(self.to)
        os.close(self.from_)
        shutil.rmtree(self.folder, True)
