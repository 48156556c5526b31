"""Makes the relations of the map out of cycle routes and turn restrictions; of roads that were cut their pieces are members."""
from .draft import is_route
from .ids import NewIds


def take_relations(draft, roads, counts, put):
    """Gives the id, the members and the tags of each relation that has an effect to `put`."""
    new_ids = NewIds(draft.relation_ids.below())
    for number, members, tags in draft.each_relation():
        if is_route(tags):
            name, versions = 'routes', route_versions(members, tags, roads)
        else:
            name, versions = 'restrictions', restriction_versions(members, tags, draft, roads)
        if not versions:
            counts['empty_' + name] += 1
            continue
        for place, version in enumerate(versions):
            counts.add('members', len(version))
            counts[name] += 1
            put(new_ids.take() if place else number, version, tags)
        counts['members_left_out'] += max(0, len(members) - sum(map(len, versions)))


def route_versions(members, tags, roads):
    """The roads of a cycle route. One without a network has no effect."""
    found = [('way', own, role) for kind, number, role in members if kind == 'way' for own in roads.pieces_at(number)]
    return [found] if found and 'network' in tags else []


def restriction_versions(members, tags, draft, roads):
    """The members of a restriction by one node, without those that aren't there. One whose ways or node aren't there has no effect.
    From a way to itself no turn is forbidden, nor from piece to piece of it: where that asks for several lists, there are several."""
    by = [(kind, number) for kind, number, role in members if role == 'via']
    place = draft.nodes.places([by[0][1]])[0] if len(by) == 1 and by[0][0] == 'node' else -1
    if place < 0 or not roads.is_used[place]:
        return []
    starts = pieces_of_role(members, 'from', roads, place)
    ends = pieces_of_role(members, 'to', roads, place, tags.get('restriction', '').startswith('only_'))
    groups = [(starts, ends)]
    if tags.get('restriction', '').startswith('no_') and any(len(starts[number]) > 1 for number in starts.keys() & ends.keys()):
        groups = [({number: pieces}, {other: ends[other] for other in ends if other != number}) for number, pieces in starts.items()]
    return [[*named(first, 'from'), ('node', by[0][1], 'via'), *named(second, 'to')] for first, second in groups if first and second]


def pieces_of_role(members, wanted, roads, place, or_elsewhere=False):
    """The pieces at a node of each way with a role, by the way's id; those elsewhere where it has none there and they count."""
    found = {}
    for kind, number, role in members:
        if kind == 'way' and role == wanted:
            pieces = roads.pieces_at(number, place) or (roads.pieces_at(number) if or_elsewhere else [])
            if pieces:
                found[number] = pieces
    return found


def named(pieces_by_way, role):
    return [('way', own, role) for pieces in pieces_by_way.values() for own in pieces]
