"""A client of the desk that knows what openapi.json says, and nothing else: no route, form or status stands in this file."""
import http.client, io, json, re, socket
from jsonschema import Draft202012Validator, RefResolver


class Unlike(Exception):
    """What the desk does isn't what is described."""


class Answer:
    """A status, the fields of the head, and the body's bytes and value: of JSON its value, of a text its characters."""

    def __init__(self, status, fields, body):
        self.status, self.fields, self.body = status, fields, body
        self.media = fields.get('Content-Type')
        self.value = json.loads(body) if self.media == 'application/json' else body.decode('ascii')

    @classmethod
    def of(cls, sent):
        """The answer of these bytes; where nothing was sent, one without a status."""
        if not sent:
            answer = cls(None, {}, b'')
        else:
            read = http.client.HTTPResponse(Sent(sent))
            read.begin()
            answer = cls(read.status, dict(read.getheaders()), read.read())
        answer.sent = sent
        return answer


class Sent:
    """What a peer has sent, as http.client reads it."""

    def __init__(self, sent):
        self.sent = sent

    def makefile(self, _):
        return io.BytesIO(self.sent)


class Client:
    def __init__(self, description, address):
        self.description, self.address = description, address
        self.resolver = RefResolver('', description)
        self.operations = {operation['operationId']: (path, method.upper(), operation) for path, methods in description['paths'].items()
                           for method, operation in methods.items()}

    def resolved(self, value):
        return self.resolver.resolve(value['$ref'])[1] if '$ref' in value else value

    def check(self, value, schema, what):
        """The value has to be as the schema says."""
        for fault in Draft202012Validator(schema, resolver=self.resolver).iter_errors(value):
            raise Unlike(f'{what}: {fault.json_path}: {fault.message[:300]}')

    def content(self, described, media, what):
        """The schema of a body of that type."""
        if media not in described.get('content', {}):
            raise Unlike(f'{what}: no body of type {media} is described')
        return described['content'][media]['schema']

    def send(self, method, path, body=None):
        """One exchange, with nothing checked."""
        connection = http.client.HTTPConnection(*self.address, timeout=60)
        connection.request(method, path, body)
        answer = connection.getresponse()
        return Answer(answer.status, dict(answer.getheaders()), answer.read())

    def exchange(self, request):
        """All that a connection gets which sends these bytes."""
        with socket.create_connection(self.address, timeout=60) as connection:
            connection.sendall(request)
            connection.shutdown(socket.SHUT_WR)
            return b''.join(iter(lambda: connection.recv(65536), b''))

    def call(self, name, parameters={}, body=None):
        """Calls an operation by its name: what is asked and what is answered has to be as described."""
        path, method, operation = self.operations[name]
        for parameter in operation.get('parameters', []):
            value = parameters[parameter['name']]
            self.check(value, parameter['schema'], f'{name}, {parameter["name"]}')
            path = path.replace('{%s}' % parameter['name'], str(value))
        sent = None
        if 'requestBody' in operation:
            media, described = next(iter(operation['requestBody']['content'].items()))
            self.check(body, described['schema'], f'{name}, what is asked')
            sent = json.dumps(body) if media == 'application/json' else body
        answer = self.send(method, path, sent)
        self.check_answer(operation, answer, name)
        return answer

    def check_answer(self, operation, answer, what):
        """An answer of an operation: its status, its type, the fields of its head and its body are described."""
        if str(answer.status) not in operation['responses']:
            raise Unlike(f'{what}: the status {answer.status} isn\'t described')
        described = self.resolved(operation['responses'][str(answer.status)])
        self.check(answer.value, self.content(described, answer.media, f'{what}, {answer.status}'), f'{what}, {answer.status}')
        for name, field in described.get('headers', {}).items():
            self.check(answer.fields.get(name), field['schema'], f'{what}, {name}')

    def operation_at(self, method, path):
        """The operation of a request, and the methods that its path takes."""
        for template, methods in self.description['paths'].items():
            if re.fullmatch(re.sub(r'\{\w+\}', '[^/]+', template), path.partition('?')[0]):
                return methods.get(method.lower()), methods
        return None, {}
