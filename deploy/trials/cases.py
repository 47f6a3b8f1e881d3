"""Requests with the answers that they have to get, of files of JSON lines. A line has either the members `editions`, `method`, `path`,
`body`, `status`, `type`, `allow` and `answer`, in which the editions are tariffs, and the rest is what is asked and answered; or
`bodies_b64`, `request_b64` and `response_b64`, which are bytes in base64: the bodies of a file of editions, all that a connection
sends, and all that it gets (null: nothing). Lines of another kind are passed over."""
import base64, collections, json, re
from client import Answer

HEAD = re.compile(rb'([!-~]+) ([!-~]+) HTTP/1\.[01]\r?\n(?:.*?\n)??\r?\n', re.DOTALL)
LENGTH = re.compile(rb'^content-length:[ \t]*([0-9]+)', re.IGNORECASE | re.MULTILINE)


class Case:
    """What is asked of a desk with these editions: a path by a method, with a body; and the answer's status, type and body."""

    def __init__(self, line):
        self.editions, self.method, self.path, self.body = line['editions'], line['method'], line['path'], line.get('body')
        self.sent = None if self.body is None else self.body.encode()
        self.wanted = (line['status'], line['type'], line.get('allow'), line['answer'].encode())

    def ask(self, client):
        return client.send(self.method, self.path, self.sent)

    def is_met(self, answer):
        return (answer.status, answer.media, answer.fields.get('Allow'), answer.body) == self.wanted

    def __str__(self):
        return f'{self.method} {self.path}'


class CaseInBytes(Case):
    """The same in bytes. Without a whole head it has neither a method nor a path."""

    def __init__(self, line):
        self.editions = [base64.b64decode(body) for body in line['bodies_b64']]
        self.request, self.wanted = base64.b64decode(line['request_b64']), base64.b64decode(line['response_b64'] or '')
        request = self.request.lstrip(b'\r\n')
        head = HEAD.match(request)
        self.method, self.path = (word.decode() for word in head.groups()) if head else (None, '')
        length = LENGTH.search(head.group()) if head else None
        self.body = request[head.end():][:int(length.group(1))].decode('utf-8', 'replace') if length else None

    def ask(self, client):
        return Answer.of(client.exchange(self.request))

    def is_met(self, answer):
        return answer.sent == self.wanted

    def __str__(self):
        return f'{self.request[:200]}'


def cases(path):
    """The cases of a file by their books. What publishes has a book of its own."""
    books = collections.defaultdict(list)
    for number, text in enumerate(path.read_text().splitlines()):
        line = json.loads(text)
        if 'editions' in line:
            case = Case(line)
        elif 'request_b64' in line:
            case = CaseInBytes(line)
        else:
            continue
        publishes = (case.method, case.path) == ('POST', '/editions')
        books[tuple(case.editions), number if publishes else None].append(case)
    return list(books.values())
