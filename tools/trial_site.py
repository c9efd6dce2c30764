"""A site for tools/try_site: nginx and four predictors in a folder of its own, and a browser without a window."""

import base64
import collections
import hashlib
import http.client
import json
import os
import pathlib
import shutil
import signal
import socket
import subprocess
import time
import urllib.parse

TOP = pathlib.Path(__file__).resolve().parent.parent
SERVER = TOP / 'examples' / 'server'
DYGRAPHS = pathlib.Path('/usr/share/javascript/dygraphs/dygraph.min.js')
WANTED = {'nginx-light': 'nginx', 'chromium': 'chromium', 'poppler-utils': 'pdftoppm'}
BROWSER = ['chromium', '--headless', '--no-sandbox', '--disable-gpu', '--disable-dev-shm-usage', '--no-first-run',
           '--disable-background-networking', '--disable-component-update',
           '--host-resolver-rules=MAP * ~NOTFOUND , EXCLUDE 127.0.0.1']
NGINX = """
worker_processes 2;
pid nginx.pid;
error_log error.log;
events {{ worker_connections 4096; }}
http {{
    include /etc/nginx/mime.types;
    access_log access.log;
    client_body_temp_path body; proxy_temp_path proxy; fastcgi_temp_path fastcgi; uwsgi_temp_path uwsgi; scgi_temp_path scgi;
    include {0}/tide.conf;
}}
"""

Reply = collections.namedtuple('Reply', 'status type body')


def wanting():
    """The Debian packages that aren't there."""
    path = f'{os.environ.get("PATH", "")}:/usr/sbin'
    missing = [package for package, command in WANTED.items() if not shutil.which(command, path=path)]
    return missing + ([] if DYGRAPHS.exists() else ['libjs-dygraphs'])


def free_ports(count):
    sockets = [socket.create_server(('127.0.0.1', 0)) for _ in range(count)]
    ports = [found.getsockname()[1] for found in sockets]
    for found in sockets:
        found.close()
    return ports


def wait_for_port(port, process, seconds=30):
    """Whether a process listens at a port in time."""
    end = time.monotonic() + seconds
    while process.poll() is None and time.monotonic() < end:
        try:
            socket.create_connection(('127.0.0.1', port), 1).close()
            return True
        except OSError:
            time.sleep(0.05)
    return False


def curve_columns(sheet):
    """The first and the last column of a sheet's first page with a point of the curve's blue, and how many there are."""
    page = subprocess.run(['pdftoppm', '-r', '72', '-f', '1', '-l', '1', sheet], capture_output=True, check=True).stdout
    _, size, _, points = page.split(b'\n', 3)
    width = int(size.split()[0])
    columns = {index % width for index, (red, blue) in enumerate(zip(points[0::3], points[2::3])) if blue - red > 80}
    return (min(columns), max(columns), width) if columns else (0, 0, width)


class Site:
    """nginx and four predictors in a folder."""

    def __init__(self, folder, words):
        self.folder, self.words = folder, words
        *self.ports, self.port = free_ports(5)
        self.predictors = {}
        self.nginx = None
        shutil.copytree(SERVER / 'html', folder / 'html')
        text = (SERVER / 'nginx.conf').read_text().replace('/usr/share/tide/server/html', str(folder / 'html'))
        # No file of another site of this machine.
        text = text.replace('/etc/tide', str(folder / 'settings')).replace('/var/lib/tide', str(folder / 'notes'))
        for usual, port in zip((8000, 8081, 8082, 8083, 8084), [self.port, *self.ports]):
            text = text.replace(f'127.0.0.1:{usual}', f'127.0.0.1:{port}')
        (folder / 'tide.conf').write_text(text)
        (folder / 'nginx.conf').write_text(NGINX.format(folder))

    def start_predictor(self, port):
        words = [self.words['program'], 'serve', f'port={port}', f'file={self.words["file"]}']
        if 'offsets' in self.words:
            words.append(f'offsets={self.words["offsets"]}')
        self.predictors[port] = subprocess.Popen(words, stderr=subprocess.PIPE, text=True)

    def wait_for_predictor(self, port):
        if not wait_for_port(port, self.predictors[port]):
            raise SystemExit(f'try_site: a predictor does not serve: {self.predictors[port].stderr.read().strip()}')

    def start_predictors(self):
        for port in self.ports:
            self.start_predictor(port)
        for port in self.ports:
            self.wait_for_predictor(port)

    def stop_predictor(self, port):
        process = self.predictors.pop(port, None)
        if process:
            process.kill()
            process.wait()
            process.stderr.close()

    def write_files(self):
        """Writes what is served beside the page: the constants and the list of stations, their checksums, and the notes."""
        files = {key: self.words[key] for key in ('file', 'offsets') if key in self.words}
        run = subprocess.run([self.words['program'], 'stations', *(f'{key}={value}' for key, value in files.items())], capture_output=True, check=True)
        served = self.folder / 'html'
        (served / 'stations.txt').write_bytes(run.stdout)
        shutil.copy(files['file'], served / 'constants.txt')
        if 'offsets' in files:
            shutil.copy(files['offsets'], served / 'offsets.csv')
        lines = [f'{hashlib.sha256(pathlib.Path(path).read_bytes()).hexdigest()}  {path}\n' for path in files.values()]
        (served / 'constants.sha256').write_text(''.join(lines))
        if 'notes' in self.words:
            shutil.copy(self.words['notes'], served / 'stations.json')

    def start(self):
        self.write_files()
        self.start_predictors()
        path = f'{os.environ.get("PATH", "")}:/usr/sbin'
        command = [shutil.which('nginx', path=path), '-p', self.folder, '-c', 'nginx.conf', '-e', 'error.log', '-g', 'daemon off;']
        self.nginx = subprocess.Popen(command, stderr=subprocess.DEVNULL)
        if not wait_for_port(self.port, self.nginx):
            raise SystemExit(f'try_site: nginx does not listen: {(self.folder / "error.log").read_text()}')

    def stop(self):
        for port in self.ports:
            self.stop_predictor(port)
        if self.nginx:
            self.nginx.terminate()
            try:
                self.nginx.wait(10)
            except subprocess.TimeoutExpired:
                self.nginx.kill()

    def get(self, path, address='127.0.0.1', method='GET', body=None, **query):
        target = f'/tide/{path}?{urllib.parse.urlencode(query)}' if query else f'/tide/{path}'
        link = http.client.HTTPConnection('127.0.0.1', self.port, timeout=60, source_address=(address, 0))
        try:
            link.request(method, target, body=body)
            reply = link.getresponse()
            return Reply(reply.status, reply.getheader('Content-Type'), reply.read())
        finally:
            link.close()

    def home(self):
        """The environment of the browser: a home in the folder, and a clock."""
        return {**os.environ, 'HOME': str(self.folder), 'TZ': 'America/New_York'}

    def browse(self, page, *flags):
        """The document of a page in a browser without a window, and the browser's complaints."""
        command = [*BROWSER, '--enable-logging=stderr', f'--user-data-dir={self.folder / "browser"}',
                   '--virtual-time-budget=30000', *(flags or ['--dump-dom']), f'http://127.0.0.1:{self.port}/{page}']
        with subprocess.Popen(command, stdout=subprocess.PIPE, stderr=subprocess.PIPE, text=True, env=self.home(),
                              process_group=0) as run:
            try:
                out, err = run.communicate(timeout=120)
            except subprocess.TimeoutExpired:
                os.killpg(run.pid, signal.SIGKILL)
                out, err = run.communicate()
        return out, [line for line in err.splitlines() if 'CONSOLE' in line]


class Tab:
    """A tab of a browser as wide as a telephone, with keys to press. For a `with`."""

    def __init__(self, site, width=360, height=740):
        self.asked, self.requests, self.complaints, self.bytes = 0, [], [], 0
        self.origin = f'http://127.0.0.1:{site.port}/'
        (its_end, self.to), (self.back, other_end) = os.pipe(), os.pipe()
        command = [*BROWSER, '--remote-debugging-pipe', f'--user-data-dir={site.folder / "tab"}']
        self.run = subprocess.Popen(['bash', '-c', f'exec "$@" 3<&{its_end} 4>&{other_end}', 'tab', *command], env=site.home(),
                                    pass_fds=(its_end, other_end), stderr=subprocess.DEVNULL, process_group=0)
        os.close(its_end)
        os.close(other_end)
        self.rest, self.session = b'', {}
        target = self.call('Target.createTarget', url='about:blank')['targetId']
        self.session = {'sessionId': self.call('Target.attachToTarget', targetId=target, flatten=True)['sessionId']}
        self.call('Network.enable')
        self.call('Log.enable')
        self.call('Runtime.enable')
        self.resize(width, height, mobile=width < 500)

    def __enter__(self):
        return self

    def __exit__(self, *_):
        os.killpg(self.run.pid, signal.SIGKILL)
        self.run.wait()
        os.close(self.to)
        os.close(self.back)

    def message(self):
        while b'\0' not in self.rest:
            piece = os.read(self.back, 65536)
            if not piece:
                raise SystemExit('try_site: the browser has ended')
            self.rest += piece
        text, _, self.rest = self.rest.partition(b'\0')
        return json.loads(text)

    def call(self, method, **values):
        self.asked += 1
        os.write(self.to, json.dumps({'id': self.asked, 'method': method, 'params': values, **self.session}).encode() + b'\0')
        while (said := self.message()).get('id') != self.asked:
            self.note(said.get('method'), said.get('params'))
        return said.get('result', {})

    def note(self, event, values):
        """Keeps the requests of the page, and the browser's complaints."""
        if event == 'Network.requestWillBeSent':
            self.requests.append(values['request']['url'])
        if event == 'Network.loadingFinished':
            self.bytes += values['encodedDataLength']
        if event == 'Log.entryAdded' and values['entry']['level'] in ('warning', 'error'):
            self.complaints.append(values['entry']['text'])
        if event == 'Runtime.exceptionThrown':
            self.complaints.append(values['exceptionDetails']['text'])

    def open(self, page, shown, seconds=60):
        """Opens a page and returns its document when an expression has come true, or after some seconds."""
        self.complaints.clear()
        self.call('Page.navigate', url=f'{self.origin}{page}')
        self.until(f'document.readyState === "complete" && ({shown})', seconds)
        return self.value('document.documentElement.outerHTML')

    def value(self, expression):
        """The value of an expression, or what its promise yields; None if the tab opens another page meanwhile."""
        return self.call('Runtime.evaluate', expression=expression, returnByValue=True, awaitPromise=True).get('result', {}).get('value')

    def called(self, module, name, *values):
        """The result of a function of one of the page's modules."""
        return self.value(f'import("{self.origin}{module}").then(it => it.{name}(...{json.dumps(values)}))')

    def until(self, expression, seconds=30):
        """Whether an expression comes true in time."""
        end = time.monotonic() + seconds
        while not self.value(expression):
            if time.monotonic() > end:
                return False
            time.sleep(0.1)
        return True

    def resize(self, width, height, mobile=False):
        self.call('Emulation.setDeviceMetricsOverride', width=width, height=height, deviceScaleFactor=1, mobile=mobile)

    def print_to(self, sheet, inches, landscape):
        """Prints the page on a paper of some inches, with the page's own margins."""
        width, height = inches
        style = '@page { size: %sin %sin; }' % ((height, width) if landscape else (width, height))
        # The page's own styles stay: year.js adopts the height of the lines.
        self.value(f'(sheet => {{ sheet.replaceSync({json.dumps(style)}); document.adoptedStyleSheets.push(sheet); }})(new CSSStyleSheet())')
        printed = self.call('Page.printToPDF', preferCSSPageSize=True, printBackground=True)
        sheet.write_bytes(base64.b64decode(printed['data']))

    def press(self, key, code):
        text = {'text': '\r'} if key == 'Enter' else {}
        self.call('Input.dispatchKeyEvent', type='keyDown', key=key, code=key, windowsVirtualKeyCode=code, **text)
        self.call('Input.dispatchKeyEvent', type='keyUp', key=key, code=key, windowsVirtualKeyCode=code)
