"""What docs/OFFICE.md says of a desk's statuses, and of a publication that couldn't be stored."""
import itertools, os, resource, socket, sqlite3, string, subprocess, threading, time
from office import QUOTATIONS, ask_desk, port_of, told, wait_for
from tariffs import renumbered

NEW = 5


def started(office, *more, stdout=subprocess.PIPE):
    """A desk's process over the file of the new desk, for two connections, with further words."""
    words = [office.program, 'serve', '--store', 'editions', '--port', str(port_of(NEW)), '--count', '2', *more]
    return subprocess.Popen(words, cwd=office.place(NEW), stdout=stdout, stderr=subprocess.PIPE, text=True)


def ended(process):
    """The status of a process that ends, and what it writes."""
    out, err = process.communicate(timeout=60)
    return process.returncode, out, err.strip()


def serve(office, *more):
    """The same of a desk that ends before it serves."""
    return ended(started(office, *more))


def served(office, **more):
    """The same of a desk that has a question, and a connection that breaks off."""
    process = started(office, **more)
    wait_for(port_of(NEW), process)
    assert ask_desk(NEW, 'GET', '/editions')[0] == 200
    with socket.create_connection(('127.0.0.1', port_of(NEW))) as peer:
        peer.sendall(b'GET')
    return ended(process)


def ends(office, samples):
    """Each status that a test can bring about, and its line."""
    assert serve(office, '--nothing') == (2, '', 'USAGE')
    with open(samples.seventh) as text:
        assert office.store(NEW, 'publish', stdin=text).returncode == 0
    with socket.socket() as other:
        other.setsockopt(socket.SOL_SOCKET, socket.SO_REUSEADDR, 1)
        other.bind(('127.0.0.1', port_of(NEW)))
        other.listen()
        assert serve(office) == (11, '', 'DOOR FAULT')
    assert served(office) == (0, 'SERVED 1 CUT 1\n', '')
    with open('/dev/full', 'w') as full:
        assert served(office, stdout=full) == (9, None, 'WRITE FAULT')
    file = office.place(NEW) / 'editions'
    with sqlite3.connect(file) as held:
        held.execute('pragma locking_mode = exclusive')
        held.execute('begin exclusive')
        assert serve(office) == (10, '', 'KEEPER FAULT')
    held.close()
    sound = file.read_bytes()
    file.write_bytes(b'This is no file of editions.' * 100)
    assert serve(office) == (10, '', 'KEEPER FAULT')
    file.write_bytes(sound)
    with sqlite3.connect(file) as damaged:
        damaged.execute("update edition set body = x'00'")
    damaged.close()
    assert serve(office)[0] == 14 and serve(office)[2].startswith('DAMAGED 1 '), serve(office)
    told('a desk ends with the statuses and lines that are listed: at its count, where its line can\'t be written, and for a port, a file '
         'that is held, and a damaged one')


def no_descriptor(office):
    """A desk that finds no descriptor for a connection ends after a minute of trying."""
    process = started(office)
    wait_for(port_of(NEW), process)
    has = len(os.listdir(f'/proc/{process.pid}/fd'))
    resource.prlimit(process.pid, resource.RLIMIT_NOFILE, (has, has))
    begun = time.monotonic()
    with socket.create_connection(('127.0.0.1', port_of(NEW))):
        process.wait(timeout=600)
    seconds = time.monotonic() - begun
    assert ended(process) == (11, '', 'DOOR FAULT') and seconds >= 50, (process.returncode, seconds)
    told('a desk that finds no descriptor for a connection tries for a minute, and then ends')


def long_tariff(tariff, number, effective):
    """The tariff with 3,000 records more, as an edition of that number."""
    cities = ['Q' + ''.join(two) for two in itertools.product(string.ascii_uppercase, repeat=2)][:100]
    pairs = list(itertools.combinations(cities, 2))[:2900]
    more = [f'CITY,{city},GB,2' for city in cities] + [f'TPM,{one},{other},100' for one, other in pairs]
    return renumbered(tariff, number, effective).replace('END\n', '\n'.join(more) + '\nEND\n')


def full_disk(office, samples):
    """A publication that finds no room is 503, the desk answers on, and publishing everywhere goes on until it has stored it."""
    place = office.place(NEW)
    (place / 'editions').unlink(missing_ok=True)
    subprocess.run(['mount', '-t', 'tmpfs', '-o', 'size=256k,mode=0700', 'tmpfs', place], check=True)
    try:
        office.start(NEW, alone=True)
        assert ask_desk(NEW, 'POST', '/editions', samples.seventh.read_bytes()) == (201, b'PUBLISHED 7\n')
        stuffing = place / 'stuffing'
        try:
            stuffing.write_bytes(b' ' * 1024 * 1024)
        except OSError:
            pass
        text = long_tariff(samples.tariff, 8, '2026-01-01').encode()
        refused = [ask_desk(NEW, 'POST', '/editions', text) for _ in range(3)]
        assert refused == [(503, b'KEEPER FAULT\n')] * 3, refused
        body = samples.bodies[0]
        assert ask_desk(NEW, 'POST', '/quote', body) == samples.before[body], 'a desk without room doesn\'t answer'
        path, answers = office.write('long.tariff', text.decode()), []
        publisher = threading.Thread(target=lambda: answers.append(office.publish(path, [NEW])))
        publisher.start()
        time.sleep(1)
        assert not answers, answers
        stuffing.unlink()
        publisher.join()
        assert answers[0].returncode == 0 and answers[0].stdout.endswith((' PUBLISHED 8\n', ' ALREADY 8\n')), answers
        office.kill(NEW)
        assert [line.split()[1] for line in office.store(NEW, 'list').stdout.splitlines()] == ['7', '8']
    finally:
        if NEW in office.desks:
            office.kill(NEW)
        subprocess.run(['umount', place], check=True)
    told('a publication for which the disk has no room is 503, the desk answers on, and is asked again until it has it')


def run(office, samples):
    no_descriptor(office)
    ends(office, samples)
    full_disk(office, samples)
