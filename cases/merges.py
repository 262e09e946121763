"""Which streams a network may answer, by a plain and slow search. docs/SEMANTICS.md says the same in words.

A record is a frozenset of pairs of a label and a number; a label is a name, or a name in angle brackets for a tag. A stream is a tuple of
segments, and a segment a tuple of records; a border stands between two segments. A network is a function from a stream to the set of all
streams that it may answer, each of which has as many segments.
"""
import itertools


def label(name):
    """The label of a word of Python: `__k` is `<#k>`, `_k` is `<k>`, and any other word a field."""
    return f"<#{name[2:]}>" if name.startswith("__") else f"<{name[1:]}>" if name.startswith("_") else name


def record(**values):
    """record(a=1, _k=2) is the record `{a=1, <k>=2}`."""
    return frozenset((label(name), value) for name, value in values.items())


def line(r):
    """The line that is printed of a record: fields before tags, in order of their names."""
    entries = sorted(r, key=lambda entry: (entry[0].startswith("<"), entry[0]))
    return "{" + ", ".join(f"{label}={value}" for label, value in entries) + "}\n"


def component(answer):
    """A filter or a box, by what it answers to one record: a list of records."""

    def net(stream):
        return {tuple(tuple(y for x in segment for y in answer(x)) for segment in stream)}

    return net


def taking(*labels):
    """Makes a component of a function of the values at these labels, which answers a dict for each record that comes out. The other labels of
    the record pass by, where they are not set."""

    def decorate(answer):
        def one(r):
            values = dict(r)
            passing = {label: value for label, value in r if label not in labels}
            return [frozenset({**passing, **made}.items()) for made in answer(*(values[label] for label in labels))]

        return component(one)

    return decorate


def serial(*parts):
    def net(stream):
        streams = {stream}
        for part in parts:
            streams = set().union(*map(part, streams))
        return streams

    return net


def shuffles(lists):
    """All lists in which each of these stands in its own order."""
    lists = [xs for xs in lists if xs]
    if not lists:
        return {()}
    found = set()
    for i, (head, *tail) in enumerate(lists):
        found |= {(head, *rest) for rest in shuffles([*lists[:i], tail, *lists[i + 1 :]])}
    return found


OWN = None  # the key of what passes all children by


def children(key, child, stream):
    """The keys of the records of a stream, each with its child."""
    keys = dict.fromkeys(key(x) for segment in stream for x in segment)
    return {k: (lambda part: {part}) if k is OWN else child(k) for k in keys}


def free(key, child):
    """A free dispatcher: each child gets the records of its key in every segment; a segment of the answer is any shuffle of theirs."""

    def net(stream):
        parts = children(key, child, stream)
        sent = [tuple(tuple(x for x in segment if key(x) == k) for segment in stream) for k in parts]
        found = set()
        for answers in itertools.product(*(part(xs) for part, xs in zip(parts.values(), sent))):
            segments = [shuffles([answer[i] for answer in answers]) for i in range(len(stream))]
            found |= set(itertools.product(*segments))
        return found

    return net


def in_turn(key, child):
    """A deterministic dispatcher: each child gets a segment for each record of its key; the answer takes their segments in the order of the
    records, and has the borders that came in."""

    def net(stream):
        parts = children(key, child, stream)
        flat = [x for segment in stream for x in segment]
        sent = [tuple((x,) for x in flat if key(x) == k) for k in parts]
        found = set()
        for answers in itertools.product(*(part(xs) for part, xs in zip(parts.values(), sent))):
            rest = {k: iter(answer) for k, answer in zip(parts, answers)}
            found.add(tuple(tuple(y for x in segment for y in next(rest[key(x)])) for segment in stream))
        return found

    return net


def choice(merge, *branches):
    """Each branch is the labels of which one leads to it, and its network. No record has labels of two branches."""

    def key(r):
        return next(i for i, (leads, _) in enumerate(branches) if not leads.isdisjoint(dict(r)))

    return merge(key, lambda i: branches[i][1])


def split(merge, tag, body):
    return merge(lambda r: dict(r)[tag], lambda _: body)


def star(merge, leaves, body, levels=8):
    """`leaves` says of a record whether it leaves at a tap. No test has so many levels."""
    return merge(
        lambda r: OWN if leaves(r) else "inside",
        lambda _: serial(body, star(merge, leaves, body, levels - 1)) if levels else None,
    )


def allowed(net, records):
    """All that may be printed for these records."""
    return {"".join(map(line, *stream)) for stream in net((tuple(records),))}
