"""Values over the scans, short: each value once, and how often it stands in a row. The page's script reads them."""
from itertools import groupby


def track(values):
    """{"of": the values that are met, "runs": place in `of`, how many scans, and so on}"""
    places, runs = {}, []
    for value, run in groupby(values):
        runs += [places.setdefault(value, len(places)), sum(1 for _ in run)]
    return {"of": list(places), "runs": runs}
