"""Least totals over walks, worked out without any plan or cells.

This is the second computation the model is held against.  A lane is a triple
(from-yard, to-yard, price); a distance is None for an unreached yard.
"""

import heapq


def lengthen(best, lanes):
    """Least totals over walks that may have one lane more."""
    longer = list(best)
    for origin, target, price in lanes:
        if best[origin] is not None:
            total = best[origin] + price
            if longer[target] is None or total < longer[target]:
                longer[target] = total
    return longer


def bellman_ford(n, lanes, source):
    """Distances from the source, and whether there is a loss circle.

    Without a loss circle no walk of n lanes or more betters the walks of at
    most n-1 lanes; with one, some walk of n lanes does.
    """
    best = [None] * n
    best[source] = 0
    for _ in range(n - 1):
        best = lengthen(best, lanes)
    return best, lengthen(best, lanes) != best


def from_every_yard(n, lanes):
    """Distances between all pairs of yards by rows, the row the from-yard.

    Also whether there is a loss circle, whichever yard it is reached from.
    """
    rows = [bellman_ford(n, lanes, yard) for yard in range(n)]
    return ([distance for row, _ in rows for distance in row],
            any(loss_circle for _, loss_circle in rows))


def least_offer(best, lanes, yard):
    """The least total by a lane to the yard, and the lowest such lane.

    None if no lane leads to it from a reached yard.
    """
    return min(((best[origin] + price, number)
                for number, (origin, target, price) in enumerate(lanes)
                if target == yard and best[origin] is not None), default=None)


def gaining_offers(best, lanes):
    """The least offer to each yard that gains by it, all from these totals."""
    offers = [least_offer(best, lanes, yard) for yard in range(len(best))]
    return {yard: offer for yard, offer in enumerate(offers)
            if offer and (best[yard] is None or offer[0] < best[yard])}


def synchronous(n, lanes, source):
    """Distances and last lanes' numbers after n-1 passes of all yards at once.

    Each pass reads the totals of the pass before.  Also whether a yard would
    gain in one pass more.  A number is None where no lane was ever taken.
    """
    best, numbers = [None] * n, [None] * n
    best[source] = 0
    for _ in range(n - 1):
        for yard, offer in gaining_offers(best, lanes).items():
            best[yard], numbers[yard] = offer
    return best, numbers, bool(gaining_offers(best, lanes))


def walks_of(lanes, source, most):
    """Every walk of at most so many lanes: last yard, total, lanes' numbers."""
    found = longest = [(source, 0, ())]
    for _ in range(most):
        longest = [(target, total + price, (*numbers, number))
                   for yard, total, numbers in longest
                   for number, (origin, target, price) in enumerate(lanes)
                   if origin == yard]
        found = found + longest
    return found


def exhaustive(n, lanes, source):
    """What bellman_ford answers, by looking at every walk of up to n lanes."""
    def least(most):
        totals = {}
        for yard, total, _ in walks_of(lanes, source, most):
            totals[yard] = min(total, totals.get(yard, total))
        return [totals.get(yard) for yard in range(n)]

    return least(n - 1), least(n) != least(n - 1)


def least_walks(n, lanes, source, yard):
    """The lanes' numbers of each least walk to the yard of up to n-1 lanes."""
    leading = [walk for walk in walks_of(lanes, source, n - 1)
               if walk[0] == yard]
    least = min((total for _, total, _ in leading), default=None)
    return {numbers for _, total, numbers in leading if total == least}


def dijkstra(n, lanes, source):
    """Distances from the source where no price is negative."""
    leaving = [[] for _ in range(n)]
    for origin, target, price in lanes:
        leaving[origin].append((target, price))
    distances = [None] * n
    waiting = [(0, source)]
    while waiting:
        total, yard = heapq.heappop(waiting)
        if distances[yard] is None:
            distances[yard] = total
            for target, price in leaving[yard]:
                heapq.heappush(waiting, (total + price, target))
    return distances


def ends_least_walk(yard, lane, distances):
    """Whether the lane is the last step of a least walk to the yard."""
    origin, target, price = lane
    return (target == yard and distances[origin] is not None
            and distances[origin] + price == distances[yard])


def leads_back(yard, source, last_lanes):
    """Whether the last lanes lead from the yard back to the source."""
    for _ in range(len(last_lanes)):
        if yard == source:
            return True
        yard = last_lanes[yard][0]
    return yard == source


def parents_hold(source, distances, last_lanes):
    """Whether each yard's last lane is right.

    The source and unreached yards have None.  Every other yard has the last
    lane of a least walk, and the last lanes lead back to the source.
    """
    for yard, distance in enumerate(distances):
        lane = last_lanes[yard]
        if yard == source or distance is None:
            if lane is not None:
                return False
        elif lane is None or not ends_least_walk(yard, lane, distances):
            return False
    return all(leads_back(yard, source, last_lanes)
               for yard, distance in enumerate(distances)
               if distance is not None)


def followed(yard, lanes, numbers, most):
    """The numbers of last lanes met on the way back from a yard.

    It ends at a yard without a last lane, or after so many lanes: with a loss
    circle it may never come to one.
    """
    met = []
    while numbers[yard] is not None and len(met) < most:
        met.append(numbers[yard])
        yard = lanes[numbers[yard]][0]
    return met


def leads_to(yard, lanes, source, numbers, distance):
    """Whether these lanes are a walk from the source to the yard, last first.

    Its total is the distance.  To the source and to an unreached yard, whose
    distance is None, there are none.
    """
    if yard == source or distance is None:
        return not numbers
    at, total = source, 0
    for origin, target, price in (lanes[number] for number in numbers[::-1]):
        if origin != at:
            return False
        at, total = target, total + price
    return (at, total) == (yard, distance)
