"""How many quotations a second one, two and three desks answer behind the address. Eight clients ask by ab, each from one address
after another, so that the shipped limit on questions of one address holds and the client isn't what takes the time. The
time-outs are the shipped ones too."""
import re, subprocess
from concurrent.futures import ThreadPoolExecutor
from office import QUOTATIONS, TLS_PORT, told

# As many questions as one address may ask in a burst, and how many addresses a client asks from.
BURST, ADDRESSES, CLIENTS = 400, 4, 8


def figure(name, text):
    found = re.search(rf'^{name}:\s+([\d.]+)', text, re.MULTILINE)
    return float(found.group(1)) if found else 0


def rate_from(address, body):
    """Quotations a second to one address; each answer is 200, and of the same length."""
    asked = subprocess.run(['ab', '-q', '-k', '-c', '1', '-n', str(BURST), '-B', address, '-p', body, '-T', 'application/json',
                            f'https://127.0.0.1:{TLS_PORT}/quote'], capture_output=True, text=True, check=True).stdout
    refused = figure('Non-2xx responses', asked) + figure('Failed requests', asked)
    assert refused == 0 and figure('Complete requests', asked) == BURST, asked
    return figure('Requests per second', asked)


def client(which, count, body):
    """The mean of one client's rates, each for as many questions."""
    rates = [rate_from(f'127.{count}.{which}.{k + 1}', body) for k in range(ADDRESSES)]
    return len(rates) / sum(1 / rate for rate in rates)


def run(office, samples):
    body = office.folder / 'trip.json'
    body.write_bytes(samples.bodies[-1])
    office.stop_nginx()
    office.start_nginx(60, 300)
    for desk in QUOTATIONS[1:]:
        office.script('desk-out', desk)
    for count, desk in enumerate(QUOTATIONS, 1):
        office.script('desk-in', desk)
        with ThreadPoolExecutor(CLIENTS) as clients:
            rate = sum(clients.map(lambda which: client(which, count, body), range(CLIENTS)))
        told(f'{rate:7.0f} quotations a second with {count} desk{"s" if count > 1 else ""}')
