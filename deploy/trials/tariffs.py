"""The tariffs and the trips of the trials."""
import json
from office import EXAMPLES, ask_desk

# The desk that answers alone, so that others can be compared with it.
LONE = 7


def example(name):
    """The itinerary and the tariff of an example."""
    trip, tariff = (EXAMPLES / name).read_text().split('\n', 1)
    return json.loads(trip), tariff


def renumbered(tariff, number, effective):
    """The same tariff as another edition."""
    return f'HEAD,1,{number},{effective}\n' + tariff.split('\n', 1)[1]


class Samples:
    """Edition 7 of 2025, edition 8 of 2026, which is dearer, and trips sold in each year with a lone desk's answers to them."""

    def __init__(self, office):
        trip, tariff = example('world.txt')
        dearer = tariff.replace('1200.00', '1210.00')
        self.tariff = tariff
        self.seventh = office.write('7.tariff', renumbered(tariff, 7, '2025-01-01'))
        self.eighth = office.write('8.tariff', renumbered(dearer, 8, '2026-01-01'))
        # The whole trip, and it cut short after each of its sectors, in both years.
        cut = [dict(trip, sectors=trip['sectors'][:n]) for n in range(1, len(trip['sectors']) + 1)]
        texts = [json.dumps(one) for one in cut]
        self.bodies = [text.encode() for text in texts] + [text.replace('2025-', '2026-').encode() for text in texts]
        office.start(LONE)
        assert office.publish(self.seventh, [LONE]).returncode == 0
        self.before = self.answers()
        assert office.publish(self.eighth, [LONE]).returncode == 0
        self.after = self.answers()
        office.kill(LONE)
        assert sum(self.before[body] != self.after[body] for body in self.bodies) == len(texts)

    def answers(self):
        """What the lone desk answers to each trip."""
        answers = {body: ask_desk(LONE, 'POST', '/quote', body) for body in self.bodies}
        assert all(status == 200 for status, _ in answers.values()), answers
        return answers
