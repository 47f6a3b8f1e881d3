"""Desks and an nginx on loopback, for trying the office for real: the shipped configuration and the words of the shipped unit, with
another port and certificate, other folders and shorter time-outs. The limits are the shipped ones."""
import http.client, os, pathlib, shutil, signal, socket, ssl, subprocess, tempfile, time

HERE = pathlib.Path(__file__).resolve().parent.parent
EXAMPLES = HERE.parent / 'examples'
QUOTATIONS, LONG = (1, 2, 3), (8, 9)
TLS_PORT = 8443
# How many seconds nginx waits for an answer in most trials, of a desk of quotations and of one of what takes long.
PATIENCE, LONG_PATIENCE = 5, 20


def port_of(desk):
    return 8100 + desk


def address_of(desk):
    return f'http://127.0.0.1:{port_of(desk)}'


def wait_for(port, process=None, seconds=60):
    """Waits until something listens at a port of 127.0.0.1."""
    end = time.monotonic() + seconds
    while time.monotonic() < end and (process is None or process.poll() is None):
        if subprocess.run(['ss', '-Hltn', f'( sport = :{port} )'], capture_output=True).stdout:
            return
        time.sleep(0.05)
    raise SystemExit(f'nothing listens at port {port}')


def wait_until(holds, what, seconds=60):
    """Waits until the call answers true, which is said in words."""
    end = time.monotonic() + seconds
    while not holds():
        assert time.monotonic() < end, f'not within {seconds} seconds: {what}'
        time.sleep(0.02)


def connections(desk):
    """How many connections a desk has."""
    words = ['ss', '-Htn', 'state', 'established', f'( sport = :{port_of(desk)} )']
    return len(subprocess.run(words, capture_output=True, text=True).stdout.splitlines())


def ask(connection, method, path, body=None, headers={}):
    """One exchange: the status and the bytes of the answer."""
    connection.request(method, path, body, headers)
    answer = connection.getresponse()
    return answer.status, answer.read()


def ask_desk(desk, method, path, body=None):
    """One exchange with a desk itself."""
    return ask(http.client.HTTPConnection('127.0.0.1', port_of(desk), timeout=60), method, path, body)


def told(what):
    print(what, flush=True)


def lines_of_unit(name):
    """The values of a setting of the desk's unit, each as its words."""
    lines = (HERE / 'systemd' / 'fares@.service').read_text().splitlines()
    return [line.split('=', 1)[1].split() for line in lines if line.startswith(f'{name}=')]


class Office:
    """A folder with the desks' files, and what runs over it."""

    def __init__(self, program):
        self.program = str(pathlib.Path(program).resolve())
        self.folder = pathlib.Path(tempfile.mkdtemp(prefix='office-'))
        self.desks = {}
        self.nginx = None
        self.environment = {**os.environ, 'DESKS': f'{self.folder}/desks.conf', 'STATE': str(self.folder), 'FARES': self.program,
                            'RUN_NGINX': f'nginx -c {self.folder}/nginx.conf', 'NGINX_PID': f'{self.folder}/pid'}
        (self.folder / 'desks.conf').write_text((HERE / 'nginx' / 'desks.conf').read_text())

    def __enter__(self):
        return self

    def __exit__(self, fault, *_):
        if fault and self.nginx:
            told(''.join((self.folder / 'errors').read_text().splitlines(True)[-20:]))
        for desk in list(self.desks):
            self.kill(desk)
        self.stop_nginx()
        shutil.rmtree(self.folder)

    def script(self, name, *words, **more):
        """Runs one of the operator's scripts."""
        return subprocess.run([HERE / name, *map(str, words)], capture_output=True, text=True, env=self.environment, **more)

    def commands(self, setting, desk):
        """The words of the unit's commands of one kind, for this office."""
        settings = dict(word.split('=') for word in lines_of_unit('Environment')[0])

        def here(word):
            word = settings.get(word.strip('${}'), word.replace('%i', str(desk)))
            return word.replace('/usr/lib/fares', str(HERE)).replace('/usr/bin/fares', self.program)
        return [[here(words[0].lstrip('+-')), *map(here, words[1:])] for words in lines_of_unit(setting)]

    def take_editions(self, desk):
        """What the unit does before the desk serves."""
        place = self.place(desk)
        return subprocess.run(self.commands('ExecStartPre', desk)[0], cwd=place, env=self.environment, capture_output=True, text=True,
                              umask=0o077)

    def place(self, desk):
        place = self.folder / f'fares-{desk}'
        place.mkdir(mode=0o700, exist_ok=True)
        return place

    def start(self, desk, alone=False):
        """Starts a desk over the file of editions that it had before, as the unit does; or without a look at the others."""
        if not alone:
            taken = self.take_editions(desk)
            assert taken.returncode == 0, taken.stderr
        log = open(self.place(desk) / 'log', 'ab')
        self.desks[desk] = subprocess.Popen(self.commands('ExecStart', desk)[0], cwd=self.place(desk), stdout=log, stderr=log, umask=0o077)
        wait_for(port_of(desk), self.desks[desk])
        for words in self.commands('ExecStartPost', desk):
            subprocess.run(words, env=self.environment, check=True, stdout=log)

    def kill(self, desk):
        """Kills a desk by signal 9."""
        process = self.desks.pop(desk)
        process.kill()
        process.wait()

    def store(self, desk, command, *words, **more):
        """Runs the program over the file of a desk that is stopped."""
        return subprocess.run([self.program, command, '--store', 'editions', *words], cwd=self.place(desk), capture_output=True,
                              text=True, umask=0o077, **more)

    def hang(self, *desks):
        """The desks do nothing from now on, while they still have their ports."""
        for desk in desks:
            self.desks[desk].send_signal(signal.SIGSTOP)

    def wake(self, *desks):
        for desk in desks:
            self.desks[desk].send_signal(signal.SIGCONT)

    def configuration(self, patience, long_patience):
        """The shipped configuration with the port, the certificate and the folders of this office, and its time-outs."""
        text = (HERE / 'nginx' / 'fares.conf').read_text()
        folder = self.folder
        for shipped, here in (('listen 443 ssl', f'listen 127.0.0.1:{TLS_PORT} ssl'), ('/etc/fares/', f'{folder}/'),
                              ('/usr/share/fares', str(folder)), ('/var/log/nginx/fares.log', f'{folder}/access'),
                              ('proxy_read_timeout 60s', f'proxy_read_timeout {patience}s'),
                              ('proxy_read_timeout 300s', f'proxy_read_timeout {long_patience}s')):
            text = text.replace(shipped, here)
        return f'''daemon off; pid {folder}/pid; error_log {folder}/errors; worker_processes 2; user root;
events {{ worker_connections 1024; }}
http {{
client_body_temp_path {folder}/body; proxy_temp_path {folder}/proxy; fastcgi_temp_path {folder}/f; access_log off;
uwsgi_temp_path {folder}/u; scgi_temp_path {folder}/s; include /etc/nginx/mime.types; default_type text/plain;
{text}
}}
'''

    def start_nginx(self, patience=PATIENCE, long_patience=LONG_PATIENCE):
        shutil.copytree(HERE / 'page', self.folder / 'page', dirs_exist_ok=True)
        key, certificate = self.folder / 'key.pem', self.folder / 'certificate.pem'
        if not key.exists():
            subprocess.run(['openssl', 'req', '-x509', '-newkey', 'rsa:2048', '-nodes', '-days', '2', '-subj', '/CN=localhost',
                            '-keyout', key, '-out', certificate], check=True, stderr=subprocess.DEVNULL)
        (self.folder / 'nginx.conf').write_text(self.configuration(patience, long_patience))
        self.nginx = subprocess.Popen(['nginx', '-c', self.folder / 'nginx.conf'])
        wait_for(TLS_PORT, self.nginx)

    def stop_nginx(self):
        if self.nginx:
            self.nginx.terminate()
            self.nginx.wait()
            self.nginx = None

    def connection(self, client='127.0.0.1'):
        """A connection to the office's one address, by the client of an address."""
        context = ssl.create_default_context(cafile=self.folder / 'certificate.pem')
        context.check_hostname = False
        return http.client.HTTPSConnection('127.0.0.1', TLS_PORT, timeout=60, context=context, source_address=(client, 0))

    def ask(self, method, path, body=None, client='127.0.0.1', headers={}):
        """One exchange with the office."""
        return ask(self.connection(client), method, path, body, headers)

    def access(self):
        """The lines of nginx's log."""
        return (self.folder / 'access').read_text().splitlines()

    def publish(self, path, desks, **settings):
        """Publishes a tariff to desks by the shipped script."""
        return subprocess.run([HERE / 'publish-everywhere', path, *map(address_of, desks)], capture_output=True, text=True,
                              env={**self.environment, 'PAUSE': '0.2', **settings})

    def write(self, name, text):
        """A file of the office's folder."""
        path = self.folder / name
        path.write_text(text)
        return path
