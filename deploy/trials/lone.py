"""One desk of a folder of its own, with the editions that it is given."""
import contextlib, sqlite3, subprocess, tempfile
from office import wait_for

PORT = 8190


def lay(program, folder, text):
    """Adds an edition to the folder's file: a tariff, or the bytes of a body."""
    if isinstance(text, str):
        subprocess.run([program, 'publish', '--store', 'editions'], input=text, text=True, cwd=folder, check=True, stdout=subprocess.DEVNULL)
        return
    with contextlib.closing(sqlite3.connect(f'{folder}/editions')) as file, file:
        file.execute('create table if not exists edition(place INTEGER PRIMARY KEY, body BLOB NOT NULL)')
        file.execute('insert into edition(body) values (?)', (text,))


@contextlib.contextmanager
def desk(program, editions=(), workers=1):
    """A desk that has these editions, at PORT."""
    with tempfile.TemporaryDirectory() as folder:
        for text in editions:
            lay(program, folder, text)
        words = ['serve', '--store', 'editions', '--port', str(PORT), '--count', '1000000', '--workers', str(workers)]
        process = subprocess.Popen([program, *words], cwd=folder)
        try:
            wait_for(PORT, process)
            yield
        finally:
            process.kill()
            process.wait()
