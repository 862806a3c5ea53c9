"""Networks as plain lanes, their request words, and their runs in the model.

A network's lanes are triples (from-yard, to-yard, price).  In method 2 no two
of them join the same yards in the same direction; in method 3 they are sorted
by to-yard.  The source is 0 in method 4.  The destination is there in method 5
alone.
"""

from collections import namedtuple
from itertools import takewhile

import model
import walks

Network = namedtuple("Network", "method yards source lanes destination",
                     defaults=(None,))
Run = namedtuple("Run", "answer start cells log distances parents route")


def has_lanes(network):
    """Whether a network's request has a word for each lane, and no table."""
    return model.form_of(network.method) is not model.TABLE


def header_of(network):
    """The header of a network's request."""
    lanes = len(network.lanes) if has_lanes(network) else 0
    return model.Header(network.method, network.yards, lanes, network.source)


def where_of(network):
    """Where the cells of a network's request lie."""
    return model.cells_of(header_of(network))


def input_words(network):
    """The words after the header of a network's request."""
    if has_lanes(network):
        words = [model.join_lane(model.Lane(origin, target, 0, price))
                 for origin, target, price in network.lanes]
        destination = network.destination
        return words + ([] if destination is None else [destination])
    prices = {(origin, target): price
              for origin, target, price in network.lanes}
    yards = range(network.yards)
    return [model.join_table_entry(model.TableEntry(0, prices.get((u, v), -1)))
            for u in yards for v in yards]


def request_words(network):
    """The words of a network's request."""
    return [model.join_header(header_of(network)), *input_words(network)]


def run(network, surplus=0, lent=0):
    """Run a network's request on buffers filled with `lent`.

    Each buffer is longer than needed by `surplus`.  The answer comes with the
    starting cells and with the buffers as the run left them.
    """
    words = request_words(network)
    header = model.split_header(words[0])
    buffers = [[lent] * (length + surplus)
               for length in model.lengths_needed(header)]
    start = model.intake(words) + [lent] * surplus
    answer = model.run_request(words, *buffers)
    return Run(answer, start, *buffers)


def walk_distances(network):
    """Distances and loss circle by the second computation.

    In method 4 they are of all pairs, and the circle may be anywhere.
    """
    n, lanes, source = network.yards, network.lanes, network.source
    if network.method == 4:
        return walks.from_every_yard(n, lanes)
    if has_lanes(network):
        return walks.bellman_ford(n, lanes, source)
    return walks.dijkstra(n, lanes, source), False


def last_lanes(network, parents):
    """The lane each yard's parent stands for, or None."""
    if has_lanes(network):
        return [None if parent == -1 else network.lanes[parent]
                for parent in parents]
    joined = {lane[:2]: lane for lane in network.lanes}
    return [joined.get((parent, v)) for v, parent in enumerate(parents)]


def marked(values, mark):
    """The values, with a mark for None."""
    return [mark if value is None else value for value in values]


def agrees_with_passes(network, finished):
    """Whether a run of method 3 left what its passes over the yards leave.

    The cells are looked at, which a loss circle leaves as well.
    """
    n, where = network.yards, where_of(network)
    distances, numbers, gains = walks.synchronous(n, network.lanes,
                                                  network.source)
    return (finished.answer.verdict == int(gains)
            and finished.cells[where.D:where.D + n]
            == marked(distances, model.FAR)
            and finished.cells[where.P:where.P + n] == marked(numbers, -1))


def shown_lanes(route):
    """The lanes that a route shows, or None if not all the rest is -1."""
    shown = list(takewhile(lambda number: number != -1, route))
    return shown if set(route[len(shown):]) <= {-1} else None


def agrees_with_parents(network, finished):
    """Whether a run of method 5 left the route that its parents lead along.

    The cells are looked at, which a loss circle leaves as well.
    """
    n, where = network.yards, where_of(network)
    parents = finished.cells[where.P:where.P + n]
    numbers = [None if parent == -1 else parent for parent in parents]
    met = walks.followed(network.destination, network.lanes, numbers, n - 1)
    return shown_lanes(finished.cells[where.R:where.R + n - 1]) == met


def agrees_with_route(network, finished, distances):
    """Whether the route of a run of method 5 is a least walk's."""
    shown = shown_lanes(finished.route[:network.yards - 1])
    return shown is not None and walks.leads_to(
        network.destination, network.lanes, network.source, shown,
        distances[network.destination])


def agrees_with_walks(network, finished):
    """Whether a run's verdict and results are the right ones."""
    if network.method == 3 and not agrees_with_passes(network, finished):
        return False
    if network.method == 5 and not agrees_with_parents(network, finished):
        return False
    distances, loss_circle = walk_distances(network)
    if finished.answer.verdict != int(loss_circle):
        return False
    if loss_circle:
        return True
    if network.method == 5 and not agrees_with_route(network, finished,
                                                     distances):
        return False
    found = [None if distance == model.FAR else distance
             for distance in finished.distances[:len(distances)]]
    if network.method == 4:
        return found == distances
    n = network.yards
    parents = finished.parents[:n]
    no_parent = [v == network.source or distances[v] is None for v in range(n)]
    return (found == distances
            and [parent == -1 for parent in parents] == no_parent
            and walks.parents_hold(network.source, distances,
                                   last_lanes(network, parents)))
