"""No question stops more than itself."""
import collections, contextlib, os, re, resource, socket, subprocess, threading, time
from office import LONG, LONG_PATIENCE, PATIENCE, QUOTATIONS, TLS_PORT, ask_desk, connections, port_of, told, wait_until

LIMIT_OF_ONE, LIMIT_OF_DESK = 8, 8
# How many questions one address may ask in a burst, and how many a second.
BURST, RATE = 400, 200
# How many seconds a desk waits for a peer that sends nothing.
SILENCE = 10


class Waiting:
    """A question in a thread of its own."""

    def __init__(self, office, path, body, client, method='POST'):
        self.answer = None
        self.thread = threading.Thread(target=self.ask, args=(office, method, path, body, client))
        self.thread.start()

    def ask(self, office, method, path, body, client):
        begun = time.monotonic()
        status, _ = office.ask(method, path, body, client)
        self.answer, self.seconds = status, time.monotonic() - begun

    def end(self):
        self.thread.join()
        return self.answer


def desks_of(line):
    """The ports of the desks that a line of the log names."""
    return re.findall(r'127\.0\.0\.1:(\d+)', line)


def not_replayed(office, samples):
    """A question that no desk answers in time costs one desk, and one time-out."""
    office.hang(*QUOTATIONS)
    one = Waiting(office, '/quote', samples.bodies[0], '127.0.0.21')
    status = one.end()
    office.wake(*QUOTATIONS)
    line = logged(office, r'127\.0\.0\.21 ')
    assert status == 504 and one.seconds < PATIENCE * 2, f'{status} after {one.seconds:.1f} seconds, with {PATIENCE} for one desk'
    assert len(desks_of(line)) == 1, f'the question was given to several desks: {line}'
    told('a question that takes too long is given to one desk alone, and the log names that desk')


def given_on(office):
    """A GET that a desk has when it ends, which changes nothing, is given to another one."""
    hang_idle(office)
    one = Waiting(office, '/editions', None, '127.0.0.20', 'GET')
    wait_until(lambda: had(QUOTATIONS) == 1, 'a desk has the question')
    desk, = [desk for desk in QUOTATIONS if connections(desk)]
    office.wake(*(other for other in QUOTATIONS if other != desk))
    office.kill(desk)
    assert one.end() == 200, one.answer
    office.start(desk)
    line = logged(office, r'127\.0\.0\.20 ')
    assert len(desks_of(line)) == 2, line
    told('a GET that a desk has when it ends is given to another one')


@contextlib.contextmanager
def unreachable(port):
    """A port at which no connection is accepted and none refused: its queue is full."""
    with socket.socket() as listener:
        listener.setsockopt(socket.SOL_SOCKET, socket.SO_REUSEADDR, 1)
        listener.bind(('127.0.0.1', port))
        listener.listen(0)
        waiting = [socket.socket() for _ in range(4)]
        for one in waiting:
            one.setblocking(False)
            one.connect_ex(('127.0.0.1', port))
        yield
        for one in waiting:
            one.close()


def passed_over(office, samples):
    """A desk that isn't there, or can't be reached, is passed over in each request before another second has gone."""
    office.kill(QUOTATIONS[0])
    for _ in range(2):
        time.sleep(2)
        longest = max(answered_in(office, body, samples.after[body]) for body in samples.bodies)
        assert longest < 1, f'a question waited {longest:.1f} seconds for a desk that isn\'t there'
    with unreachable(port_of(QUOTATIONS[0])):
        # nginx counts the two seconds for which it leaves the desk out in whole ones.
        time.sleep(3.1)
        longest = max(answered_in(office, body, samples.after[body]) for body in samples.bodies * 2)
    office.start(QUOTATIONS[0])
    assert 0.9 < longest < 2, f'a question waited {longest:.1f} seconds for a desk that can\'t be reached'
    given_again(office, samples, QUOTATIONS[0])
    told('a desk that isn\'t there or can\'t be reached is passed over in time')


def answered_in(office, body, answer):
    """How many seconds a question takes, which is answered as it has to be."""
    begun = time.monotonic()
    assert office.ask('POST', '/quote', body, '127.0.0.22') == answer
    return time.monotonic() - begun


def given_again(office, samples, desk):
    """Waits until the desk, which nginx leaves out for two seconds, has answered a question, so that it gets as many as the others."""
    before = len(office.access())
    for _ in range(50):
        answered_in(office, samples.bodies[0], samples.after[samples.bodies[0]])
        if any(line.split()[-2:-1] == ['answered=200'] and desks_of(line) == [str(port_of(desk))] for line in office.access()[before:]):
            return
        time.sleep(0.1)
    raise AssertionError(f'desk {desk} gets no questions')


def had(desks):
    """How many questions the desks have."""
    return sum(map(connections, desks))


def hang_idle(office):
    """The desks of quotations hang, and have no question yet."""
    wait_until(lambda: had(QUOTATIONS) == 0, 'the desks have answered')
    office.hang(*QUOTATIONS)


def answered(questions):
    """How many of the questions are answered."""
    return sum(one.answer is not None for one in questions)


def limit_of_one(office, samples):
    """One address has eight questions before the desks at once, and what it asks beyond is refused; another one is answered."""
    hang_idle(office)
    greedy = [Waiting(office, '/quote', samples.bodies[0], '127.0.0.23') for _ in range(12)]
    wait_until(lambda: had(QUOTATIONS) == LIMIT_OF_ONE and answered(greedy) == 4, 'eight are before the desks, and four are refused')
    other = Waiting(office, '/quote', samples.bodies[0], '127.0.0.24')
    wait_until(lambda: had(QUOTATIONS) == LIMIT_OF_ONE + 1, 'another address is before the desks')
    assert office.ask('GET', '/', client='127.0.0.23')[0] == 200, 'an address that asks too much can\'t load the page'
    office.wake(*QUOTATIONS)
    statuses = [one.end() for one in greedy]
    assert sorted(statuses) == [200] * LIMIT_OF_ONE + [429] * 4, statuses
    assert other.end() == 200, other.answer
    told('an address that asks too much at once is refused with 429, and another one is answered')


def left(office, samples):
    """A question counts as long as a desk has it, even where the client has left: so nobody fills the desks by leaving."""
    client, body = '127.0.0.29', samples.bodies[0]
    hang_idle(office)
    leaving = [office.connection(client) for _ in range(LIMIT_OF_ONE)]
    for one in leaving:
        one.request('POST', '/quote', body)
    wait_until(lambda: had(QUOTATIONS) == LIMIT_OF_ONE, 'the questions are before the desks')
    for one in leaving:
        one.close()
    time.sleep(0.5)
    status, _ = office.ask('POST', '/quote', body, client)
    office.wake(*QUOTATIONS)
    assert status == 429, f'who leaves has more questions before the desks than one may: {status}'
    told('a question counts until a desk has answered it, even where the client has left')


def limit_of_rate(office):
    """One address that goes on asking is answered a burst and its rate, and refused beyond; another one is answered."""
    client = '127.0.0.27'
    begun = time.monotonic()
    subprocess.run(['ab', '-q', '-k', '-c', '4', '-n', '4000', '-B', client, f'https://127.0.0.1:{TLS_PORT}/editions/7'],
                   check=True, capture_output=True)
    seconds = time.monotonic() - begun
    other = office.ask('GET', '/editions/7', client='127.0.0.28')
    wait_until(lambda: sum(statuses_of(office, client).values()) == 4000, 'each question is in the log')
    statuses = statuses_of(office, client)
    assert set(statuses) == {'200', '429'} and BURST <= statuses['200'] <= BURST + RATE * seconds + 1, (statuses, seconds)
    assert other[0] == 200, other
    told('an address that asks more than its rate for long is refused with 429 beyond it, and another one is answered')


def statuses_of(office, client):
    """How often an address was answered by each status, as nginx's log says."""
    return collections.Counter(line.split('"')[2].split()[0] for line in office.access() if line.startswith(f'{client} '))


def limit_of_desk(office, samples):
    """A desk that hangs stops the questions that it has, which are eight at most, and no others."""
    hang_idle(office)
    many = [Waiting(office, '/quote', samples.bodies[0], f'127.0.0.{30 + k}') for k in range(40)]
    wait_until(lambda: had(QUOTATIONS) + answered(many) == 40, 'each question is before a desk or answered')
    given = [connections(desk) for desk in QUOTATIONS]
    office.wake(*QUOTATIONS)
    statuses = sorted(one.end() for one in many)
    assert given == [LIMIT_OF_DESK] * 3, f'questions that three desks have at once: {given}'
    assert statuses == [200] * 24 + [502] * 16, statuses

    office.hang(QUOTATIONS[0])
    many = [Waiting(office, '/quote', samples.bodies[0], f'127.0.0.{30 + k}') for k in range(24)]
    statuses = [one.end() for one in many]
    office.wake(QUOTATIONS[0])
    stopped = [desks_of(line) for line in office.access()[-24:] if '" 504 ' in line]
    assert set(statuses) <= {200, 504} and statuses.count(504) <= LIMIT_OF_DESK, statuses
    assert all(desks == [str(port_of(QUOTATIONS[0]))] for desks in stopped), stopped
    told(f'a desk has eight questions at most; of 24 asked at once while one hangs {statuses.count(200)} are answered')


def long_ones(office, samples):
    """What takes long and hangs doesn't stop quotations."""
    office.hang(*LONG)
    batch = b'[' + b','.join(samples.bodies) + b']'
    waiting = [Waiting(office, path, text, f'127.0.0.{80 + k}') for k, (path, text) in
               enumerate((('/batch', batch), ('/best/10', samples.bodies[0])) * 6)]
    wait_until(lambda: had(LONG) + answered(waiting) == 12, 'each question is before a desk or answered')
    begun = time.monotonic()
    for body in samples.bodies * 2:
        assert office.ask('POST', '/quote', body, '127.0.0.25') == samples.after[body]
    seconds = time.monotonic() - begun
    office.wake(*LONG)
    statuses = [one.end() for one in waiting]
    assert seconds < LONG_PATIENCE, f'{seconds:.1f} seconds'
    assert sorted(statuses) == [200] * 8 + [502] * 4, statuses
    told('quotations go on while batches and lists of the cheapest fill their desks')


def logged(office, pattern):
    """The line of nginx's log with the pattern, which may be written a little after the answer."""
    for _ in range(50):
        for line in office.access():
            if re.match(pattern, line):
                return line
        time.sleep(0.1)
    raise AssertionError(f'nginx\'s log has no line of {pattern}')


def whose_questions(office):
    """What takes long is asked of the desks that are there for it, and all else of the others."""
    paths = {'POST': ('/batch', '/best/10', '/why', '/json/batch', '/json/best/10', '/json/why', '/check'), 'GET': ('/editions/7/diff/8',)}
    others = {'POST': ('/quote', '/audit', '/json/quote', '/json/audit', '/none'),
              'GET': ('/editions', '/editions/7', '/json/editions', '/none/batch', '/page')}
    for kinds, desks in ((paths, LONG), (others, QUOTATIONS)):
        wanted = {str(port_of(desk)) for desk in desks}
        for method, path in ((method, path) for method in kinds for path in kinds[method]):
            office.ask(method, path, b'{}' if method == 'POST' else None, '127.0.0.26')
            named = set(desks_of(logged(office, f'127.0.0.26 .*"{method} {path} ')))
            assert named and named <= wanted, f'{method} {path} is asked of {named}'
    told('what takes long has desks of its own')


@contextlib.contextmanager
def silent(desk, count, text=b''):
    """So many peers of a desk, each of which sends this text and then nothing."""
    peers = [socket.create_connection(('127.0.0.1', port_of(desk))) for _ in range(count)]
    for one in peers:
        one.sendall(text)
    yield
    for one in peers:
        one.close()


def silent_peers(office, samples):
    """Peers of a desk that send nothing, or half a request, stand before no other one, and are cut off."""
    desk = QUOTATIONS[0]
    with silent(desk, 10), silent(desk, 10, b'POST /quote HTTP/1.1\r\nContent-Length: 99\r\n'):
        time.sleep(0.5)
        begun = time.monotonic()
        for body in samples.bodies:
            assert ask_desk(desk, 'POST', '/quote', body) == samples.after[body]
        seconds = time.monotonic() - begun
        assert seconds < SILENCE / 2, f'silent peers delay a desk\'s questions by {seconds:.1f} seconds'
        assert connections(desk) == 20, 'silent peers are cut off at once'
        wait_until(lambda: connections(desk) == 0, 'silent peers are cut off')
    told('peers that send nothing, or half a request, delay no other one, and are cut off')


def no_descriptor(office, samples):
    """A desk that has no descriptor left for a connection waits for one, and goes on."""
    desk = QUOTATIONS[0]
    process = office.desks[desk]
    had = resource.prlimit(process.pid, resource.RLIMIT_NOFILE)
    resource.prlimit(process.pid, resource.RLIMIT_NOFILE, (len(os.listdir(f'/proc/{process.pid}/fd')) + 4, had[1]))
    with silent(desk, 12):
        time.sleep(3)
        assert process.poll() is None, 'a desk without a descriptor has ended'
    begun = time.monotonic()
    assert ask_desk(desk, 'POST', '/quote', samples.bodies[0]) == samples.after[samples.bodies[0]]
    resource.prlimit(process.pid, resource.RLIMIT_NOFILE, had)
    assert time.monotonic() - begun < 2
    told('a desk that has no descriptor left waits for one, and goes on')


def run(office, samples):
    not_replayed(office, samples)
    given_on(office)
    passed_over(office, samples)
    limit_of_one(office, samples)
    left(office, samples)
    limit_of_rate(office)
    limit_of_desk(office, samples)
    long_ones(office, samples)
    whose_questions(office)
    silent_peers(office, samples)
    no_descriptor(office, samples)
