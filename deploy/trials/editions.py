"""Who may publish, publishing with a desk that hangs, the comparison of desks, and copies of their files."""
import os, shutil, stat, threading
from office import LONG, QUOTATIONS, address_of, ask_desk, told, wait_until
from tariffs import renumbered

NEW = 4
EVERYWHERE = QUOTATIONS + LONG


def who_may(office, samples):
    """The address that is named may publish, and no other one, and no page in a browser."""
    text = renumbered(samples.tariff, 10, '2028-01-01').encode()
    assert office.ask('POST', '/editions', text, '127.0.0.2')[0] == 403, 'an address that may not has published'
    for headers in ({'Origin': 'https://elsewhere.example'}, {'Sec-Fetch-Site': 'cross-site'}, {'Origin': 'null'},
                    {'Origin': 'https://fares.example', 'Sec-Fetch-Site': 'same-origin'}):
        assert office.ask('POST', '/editions', text, headers=headers)[0] == 403, f'a page has published: {headers}'
    assert office.ask('GET', '/editions', headers={'Sec-Fetch-Site': 'same-origin'}, client='127.0.0.2')[0] == 200
    assert not any(b'EDITION 10 ' in ask_desk(desk, 'GET', '/editions')[1] for desk in QUOTATIONS)
    assert office.ask('POST', '/editions', text) == (201, b'PUBLISHED 10\n')
    has = [desk for desk in QUOTATIONS if b'EDITION 10 ' in ask_desk(desk, 'GET', '/editions')[1]]
    assert len(has) == 1
    for desk in EVERYWHERE:
        if desk not in has:
            assert office.script('catch-up', address_of(has[0]), address_of(desk)).returncode == 0
    told('an address that may publish does, another one and a page in a browser don\'t')


def headers(office):
    """What a browser may do with the page is said with the page and with each answer."""
    for path in ('/', '/editions', '/none'):
        connection = office.connection()
        connection.request('GET', path)
        named = connection.getresponse().headers
        assert "default-src 'none'" in named.get('Content-Security-Policy', ''), f'{path} says nothing of what a browser may fetch'
        assert named['X-Content-Type-Options'] == 'nosniff' and named['X-Frame-Options'] == 'DENY', path
        assert 'max-age' in named.get('Strict-Transport-Security', ''), path
    told('each answer has its security headers')


def one_hangs(office, samples):
    """Publishing everywhere with a desk that hangs: the others have the edition at once, and the desk has it when it wakes."""
    path = office.write('11.tariff', renumbered(samples.tariff, 11, '2029-01-01'))
    office.hang(QUOTATIONS[0])
    answers = []
    publisher = threading.Thread(target=lambda: answers.append(office.publish(path, EVERYWHERE)))
    publisher.start()
    wait_until(lambda: all(b'EDITION 11 ' in ask_desk(desk, 'GET', '/editions')[1] for desk in EVERYWHERE[1:]),
               'a desk that hangs keeps the edition from no other one')
    assert not answers, 'the desk that hangs is passed over'
    office.wake(QUOTATIONS[0])
    publisher.join()
    assert answers[0].returncode == 0 and answers[0].stdout.count(' 11\n') == len(EVERYWHERE), answers[0]
    told('a desk that hangs delays no other one\'s edition, and has it in the end')

    again = office.publish(path, EVERYWHERE)
    assert again.returncode == 0 and again.stdout.count('ALREADY 11') == len(EVERYWHERE), again
    dearer = office.write('dearer-7.tariff', samples.seventh.read_text().replace('1200.00', '1201.00'))
    refused = office.publish(dearer, EVERYWHERE)
    assert refused.returncode == 1 and refused.stderr.count('409 DIFFERS 7') == len(EVERYWHERE), refused
    office.hang(QUOTATIONS[0])
    given_up = office.publish(path, QUOTATIONS, PATIENCE='2')
    office.wake(QUOTATIONS[0])
    assert given_up.returncode == 1 and given_up.stderr.startswith(address_of(QUOTATIONS[0])), given_up
    told('publishing again changes nothing; a desk that refuses or stays silent is named')


def compared(office, samples):
    """Desks are compared by the texts of their editions."""
    addresses = [address_of(desk) for desk in EVERYWHERE]
    same = office.script('same-everywhere', *addresses)
    assert same.returncode == 0 and same.stdout.startswith('the same '), same
    office.start(NEW)
    assert office.script('same-everywhere', *addresses, address_of(NEW)).returncode == 0, 'a new desk hasn\'t caught up'
    office.kill(NEW)
    (office.place(NEW) / 'editions').unlink()
    for path in (office.folder / 'dearer-7.tariff', samples.eighth):
        with open(path) as text:
            assert office.store(NEW, 'publish', stdin=text).returncode == 0
    office.start(NEW, alone=True)
    differs = office.script('same-everywhere', addresses[0], address_of(NEW))
    wanted = [f'{address_of(NEW)} has another edition 7 than {addresses[0]}', f'{address_of(NEW)} lacks edition 10 of {addresses[0]}']
    assert differs.returncode == 1 and all(line in differs.stdout.splitlines() for line in wanted), differs
    office.kill(NEW)
    told('desks with the same list and another text, or with fewer editions, are told apart')


def backed_up(office):
    """A copy of a desk that serves, in a file for its owner alone, from which a desk can start."""
    copy = office.folder / 'copy'
    done = office.script('back-up', address_of(QUOTATIONS[0]), copy)
    assert done.returncode == 0 and stat.S_IMODE(os.stat(copy).st_mode) == 0o600, done
    assert not list(office.folder.glob('copy?*')), 'something is left beside the copy'
    shutil.rmtree(office.place(NEW))
    copy.rename(office.place(NEW) / 'editions')
    listed = office.store(NEW, 'list').stdout.encode()
    assert (200, listed) == ask_desk(QUOTATIONS[0], 'GET', '/editions')
    for file in office.place(QUOTATIONS[0]).glob('editions*'):
        assert stat.S_IMODE(os.stat(file).st_mode) == 0o600, file
    again = office.script('back-up', address_of(QUOTATIONS[0]), office.place(NEW) / 'editions')
    assert again.returncode == 2, again
    told('a copy is made while the desk serves, and a file of editions is its owner\'s alone')


def run(office, samples):
    who_may(office, samples)
    headers(office)
    one_hangs(office, samples)
    compared(office, samples)
    backed_up(office)
