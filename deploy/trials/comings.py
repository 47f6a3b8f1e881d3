"""Desks come and go while questions are asked: one is killed, one is taken out and stopped, and each that comes back has what was
published meanwhile."""
import contextlib, http.client, shutil, threading, time
from office import LONG, QUOTATIONS, ask_desk, connections, told, wait_until

CLIENTS = [f'127.0.0.{n}' for n in range(11, 19)]


class Asked:
    """A question, when it was asked and answered, and what the answer was."""

    def __init__(self, body, begun, status, text):
        self.body, self.begun, self.ended, self.answer = body, begun, time.monotonic(), (status, text)

    def spans(self, moment):
        return self.begun < moment < self.ended


@contextlib.contextmanager
def quotations(office, bodies):
    """Eight clients, each of an address of its own, ask one question after another meanwhile."""
    asked, over = [], threading.Event()

    def client(address, k):
        while not over.is_set():
            body, begun = bodies[k % len(bodies)], time.monotonic()
            try:
                asked.append(Asked(body, begun, *office.ask('POST', '/quote', body, address)))
            except (OSError, http.client.HTTPException) as fault:
                asked.append(Asked(body, begun, 0, repr(fault).encode()))
            k += 1
    clients = [threading.Thread(target=client, args=(address, k)) for k, address in enumerate(CLIENTS)]
    for one in clients:
        one.start()
    try:
        yield asked
    finally:
        over.set()
        for one in clients:
            one.join()


def settle(asked, count):
    """Waits until so many more questions were answered."""
    wanted = len(asked) + count
    wait_until(lambda: len(asked) >= wanted, 'the questions stand still')


def killed(office, samples):
    """One desk is killed and started again, and an edition that half of the quotations use is published, while they are asked."""
    desk = QUOTATIONS[1]
    with quotations(office, samples.bodies) as asked:
        settle(asked, 100)
        # It hangs for a moment first, so that it has questions when it is killed.
        office.hang(desk)
        settle(asked, 30)
        begun = time.monotonic()
        office.kill(desk)
        end_of_kill = time.monotonic()
        settle(asked, 100)
        publishing = []
        publisher = threading.Thread(target=lambda: publishing.append(office.publish(samples.eighth, QUOTATIONS + LONG)))
        publisher.start()
        settle(asked, 100)
        office.start(desk)
        publisher.join()
        published = time.monotonic()
        settle(asked, 100)
    assert publishing[0].returncode == 0, publishing[0].stderr
    cut = [one for one in asked if one.answer[0] == 502]
    assert all(one.begun < end_of_kill and one.ended > begun for one in cut), 'a question was cut off that the killed desk hadn\'t taken'
    assert 1 <= len(cut) <= 8, f'{len(cut)} questions were cut off with one desk'
    wrong = [one for one in asked if one not in cut and one.answer not in (samples.before[one.body], samples.after[one.body])]
    assert not wrong, f'{len(wrong)} quotations are of no lone desk: {wrong[0].answer}'
    late = [one for one in asked if one.begun > published and one.answer != samples.after[one.body]]
    assert not late, f'{len(late)} quotations are of the old edition after the publication: {late[0].answer}'
    before, after = (sum(one.ended < begun for one in asked), sum(one.begun > end_of_kill for one in asked))
    assert before >= 100 and after >= 300
    told(f'{len(asked)} quotations, {before} of them before a desk was killed and {after} behind it, and an edition for half of '
         f'them published: {len(cut)} were cut off with the desk, and each other one is as of a lone desk')


def taken_out(office, samples):
    """A desk is taken out as its unit does before it is stopped, and started again: no question is cut off."""
    desk = QUOTATIONS[2]
    with quotations(office, samples.bodies) as asked:
        for _ in range(3):
            settle(asked, 50)
            out = office.script('desk-out', desk)
            assert out.returncode == 0, out.stderr
            office.kill(desk)
            settle(asked, 50)
            office.start(desk)
        settle(asked, 50)
    cut = [one for one in asked if one.answer != samples.after[one.body]]
    assert not cut, f'{len(cut)} questions were cut off: {cut[0].answer}'
    told(f'{len(asked)} quotations while a desk was taken out, stopped and started three times: none was cut off')


def waited_for(office, samples):
    """A desk that is taken out is waited for until it has answered what it has."""
    desk, body = QUOTATIONS[2], samples.bodies[0]
    office.hang(desk)
    answers = []
    asking = threading.Thread(target=lambda: answers.append(ask_desk(desk, 'POST', '/quote', body)))
    asking.start()
    wait_until(lambda: connections(desk) == 1, 'the desk has its question')
    out = []
    taking = threading.Thread(target=lambda: out.append(office.script('desk-out', desk)))
    taking.start()
    time.sleep(2)
    assert not out, 'a desk that has a question is taken out as if it had none'
    given_up = office.script('desk-out', desk, 1)
    office.wake(desk)
    taking.join()
    asking.join()
    assert given_up.returncode == 1 and 'still has questions' in given_up.stderr, given_up
    assert out[0].returncode == 0 and answers == [samples.after[body]], (out, answers)
    assert office.script('desk-in', desk).returncode == 0
    told('a desk that is taken out is waited for until it has answered')


def comes_back(office, samples):
    """What was published while a desk was away it has before it serves."""
    desk, other = QUOTATIONS[0], QUOTATIONS[1]
    ninth = office.write('9.tariff', samples.seventh.read_text().replace('HEAD,1,7,2025-01-01', 'HEAD,1,9,2027-01-01'))
    office.kill(desk)
    assert office.publish(ninth, QUOTATIONS[1:] + LONG).returncode == 0
    office.start(desk)
    assert b'EDITION 9 ' in ask_desk(desk, 'GET', '/editions')[1], 'the desk serves without what was published meanwhile'
    told('a desk that was away has what was published meanwhile before it serves')

    office.kill(desk)
    others = QUOTATIONS[1:] + LONG
    office.hang(*others)
    taken = office.take_editions(desk)
    office.wake(*others)
    assert taken.returncode == 1 and 'none of the desks that run answers' in taken.stderr, taken
    office.start(desk)
    told('a desk doesn\'t serve while no running desk can tell what was published')

    office.kill(other)
    office.place(other).rename(office.folder / 'set-aside')
    dearer = office.write('dearer.tariff', ninth.read_text().replace('2027-01-01', '2027-02-01'))
    with open(dearer) as text:
        assert office.store(other, 'publish', stdin=text).returncode == 0
    taken = office.take_editions(other)
    assert taken.returncode == 1 and 'DIFFERS 9' in taken.stderr, taken
    shutil.rmtree(office.place(other))
    (office.folder / 'set-aside').rename(office.place(other))
    office.start(other)
    told('a desk with another edition of a number doesn\'t serve, and says which')


def started_first(office, samples):
    """A desk that is started before all that know what was published while it was away has it from the next one."""
    first, second = QUOTATIONS[:2]
    twelfth = office.write('12.tariff', samples.seventh.read_text().replace('HEAD,1,7,2025-01-01', 'HEAD,1,12,2030-01-01'))
    office.kill(first)
    others = QUOTATIONS[1:] + LONG
    assert office.publish(twelfth, others).returncode == 0
    for desk in others:
        office.kill(desk)
    office.start(first)
    assert b'EDITION 12 ' not in ask_desk(first, 'GET', '/editions')[1]
    office.start(second)
    assert b'EDITION 12 ' in ask_desk(first, 'GET', '/editions')[1], 'a desk that was started first stays without an edition'
    for desk in others[1:]:
        office.start(desk)
    counts = {words[words.index('--count') + 1] for desk in QUOTATIONS + LONG for words in office.commands('ExecStart', desk)}
    assert len(counts) == 5, f'desks end together: {counts}'
    told('a desk that was started before all others has what it lacks from the next one; no two desks end at one count')


def run(office, samples):
    killed(office, samples)
    taken_out(office, samples)
    waited_for(office, samples)
    comes_back(office, samples)
    started_first(office, samples)
