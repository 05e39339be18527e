"""The made input of the scripts beside this one: products with up to three offers, each with up to two stocks, written and deleted."""

MAPPING = ('{"mapping":{"properties":{"name":{"type":"text"},"offers":{"type":"nested","properties":'
           '{"color":{"type":"keyword"},"price":{"type":"long"},"stock":{"type":"nested","properties":'
           '{"n":{"type":"long"},"site":{"type":"keyword"}}}}},"rel":{"type":"join","relations":'
           '{"question":"answer"}}}}}')


class Draws:
    """Numbers that are the same on each machine."""

    def __init__(self, seed):
        self.state = seed

    def draw(self, below):
        self.state = (self.state * 6364136223846793005 + 1442695040888963407) % 2**64
        return self.state // 2**33 % below


def stock(draws):
    count = draws.draw(10)
    return '{"n":%d,"site":"%s"}' % (count, "ab"[draws.draw(2)])


def offer(draws):
    color = ("red", "blue", "green")[draws.draw(3)]
    price = draws.draw(100)
    stocks = ",".join(stock(draws) for _ in range(draws.draw(3)))
    return '{"color":"%s","price":%d,"stock":[%s]}' % (color, price, stocks)


def product(number, draws):
    """The source of a tree."""
    offers = ",".join(offer(draws) for _ in range(draws.draw(4)))
    return '{"name":"item %d","offers":[%s]}' % (number, offers)


def writes(count):
    """The id of each write, with its source, or with None where the tree is deleted."""
    draws = Draws(7)
    for number in range(count):
        if draws.draw(10) == 0 and number > 0:
            yield str(draws.draw(number)), None
        else:
            yield str(number), product(number, draws)


def lines_of(made):
    """The lines of a mapping and of these writes."""
    yield MAPPING
    for id, source in made:
        if source is None:
            yield '{"delete":{"_id":"%s"}}' % id
        else:
            yield '{"index":{"_id":"%s"}}' % id
            yield source


def replies_to(made):
    """The replies to these lines, by a set of ids."""
    yield '{"result":"mapped"}'
    live, number = set(), 0
    for id, source in made:
        if source is None and id not in live:
            yield '{"_id":"%s","result":"not_found"}' % id
            continue
        result = "deleted" if source is None else "updated" if id in live else "created"
        yield '{"_id":"%s","_seq_no":%d,"result":"%s"}' % (id, number, result)
        number += 1
        live.discard(id) if source is None else live.add(id)
