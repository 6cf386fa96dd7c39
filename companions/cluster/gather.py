"""The journals of a cluster's parts, as they are told, or as the logs on this machine have them."""
import json
import os
import sys

sys.path.insert(0, f"{os.path.dirname(os.path.dirname(os.path.dirname(os.path.realpath(__file__))))}/tools")
import client
import entries
import places

CHUNK = 5_000


class NotThere(Exception):
    """A journal that cannot be had."""


def journal(asker, folder, part):
    """The entries of the part so far."""
    length = asker.length(part)
    if length is client.LOST:
        return of_log(folder, part)
    found = []
    while len(found) < length:
        more = asker.entries(part, len(found) + 1, min(length, len(found) + CHUNK))
        if not more:
            raise NotThere(f"{places.name(part)} stopped answering")
        found += more
    return found


def of_log(folder, part):
    try:
        with open(places.log_of(folder, part), "rb") as it:
            return [json.loads(line) for line in it.read().split(b"\n")[:-1]]
    except OSError:
        raise NotThere(f"no answer from {places.name(part)}: put the log of its machine at {places.log_of(folder, part)}") from None


def within(journals, lengths):
    """The journals up to these lengths and up to what is cited there."""
    kept, looked = dict(lengths), dict.fromkeys(journals, 0)
    while left := [part for part in journals if looked[part] < kept[part]]:
        for part in left:
            for it in journals[part][looked[part] : kept[part]]:
                for cited, number, *_ in entries.citations(it["ask"]):
                    if number <= len(journals.get(cited, ())):
                        kept[cited] = max(kept[cited], number)
            looked[part] = min(kept[part], len(journals[part]))
            kept[part] = looked[part]
    return {part: journals[part][: kept[part]] for part in journals}
