"""Searches that leave out a part of document 02, C-14 or C-15: where one of them says otherwise, a case needs the part.

    differences(image, source, strip, lengths, outcomes)    -> pairs: the variant, and in what it differs

`outcomes` are those of the plain and the DF search of searches.py. NEEDED has, for each variant, all that has to differ
in some case. Each variant ends: what it compares of a way has no endless fall, and a station that has not fallen stays
fresh.
"""
from searches import Search, df_step, plain_step, run


class ByTime(Search):
    """Ways are compared by time alone, as before C-14. Where moves take no time, equal time alone makes a tie: stations
    become each other's predecessors, and the source gets one."""

    def rank(self, way):
        return way[0]


class ChoosesByTime(Search):
    """Relaxes by time and moves, but chooses a station by time and number."""

    def least(self, stations):
        return min(stations, key=lambda s: (self.way[s][0], s))


class StaysFresh(Search):
    """A station that gets fewer moves at the same time stays fresh."""

    def relax(self, u, v, time):
        was_fresh, before = v in self.fresh, self.way.get(v)
        super().relax(u, v, time)
        if was_fresh and self.way[v][0] == before[0]:
            self.fresh.add(v)


class HandoverIsNoMove(Search):
    """A move of time 0 is not counted, since "nothing moves between them": it makes a way no more, and so here too
    chains of predecessors run in circles."""

    def with_move(self, way, time):
        return super().with_move(way, time) if time else way


NEEDED = {
    ByTime: ('predecessors', 'predecessor of the source', 'plain list', 'df list', 'refused page'),
    ChoosesByTime: ('plain list', 'df list', 'refused page'),
    StaysFresh: ('moves', 'predecessors', 'df list'),
    HandoverIsNoMove: ('moves', 'predecessors', 'predecessor of the source', 'plain list', 'df list', 'refused page'),
}


def found(source, plain, df):
    """What the two outcomes say of each thing that may differ."""
    page = df.answer[2] if df.answer[0] == 'refused' and len(df.answer) == 5 else None
    return {'moves': df.moves, 'predecessors': df.predecessors,
            'predecessor of the source': df.predecessors[source:source + 1], 'plain list': plain.list,
            'df list': df.list, 'refused page': page}


def differences(image, source, strip, lengths, outcomes):
    ours = found(source, *outcomes)
    for variant, names in NEEDED.items():
        theirs = found(source, *[run(step, image, source, strip, lengths, variant) for step in (plain_step, df_step)])
        yield from ((variant, name) for name in names if theirs[name] != ours[name])
