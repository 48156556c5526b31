"""What is at fault in the names, tags and values of a profile under a tag table, in the order in which the program looks."""
from profiles.syntax import Fault
from profiles.words import kind_of, look_of

ELEVATION_NAMES = {b'uphillcost': '0', b'downhillcost': '0', b'uphillcutoff': '0', b'downhillcutoff': '0', b'elevationpenaltybuffer': '5',
                   b'elevationmaxbuffer': '10', b'elevationbufferreduce': '0'}
WAY_EFFECTS = (b'costfactor', b'turncost', b'initialcost', b'initialclassifier', b'nodeaccessgranted', b'uphillcostfactor',
               b'downhillcostfactor')
SECTIONS = ('global', 'way', 'node')


def of_section(assignments, section):
    return [each for each in assignments if each.section == section]


def context_faults(assignments, table):
    """The faults of the sections, and last a missing `costfactor`."""
    faults = []
    of_all = {each.name.text for each in of_section(assignments, 'global')}
    for section in SECTIONS:
        known = set() if section == 'global' else set(of_all)
        for each in of_section(assignments, section):
            if section == 'way' and each.name.text in ELEVATION_NAMES:
                faults.append(Fault('wrong section', each.name, 'way'))
            faults += leaf_faults(each, known, table)
            known.add(each.name.text)
    if b'costfactor' not in {each.name.text for each in of_section(assignments, 'way')}:
        faults.append(Fault('no costfactor', None))
    return faults


def leaf_faults(assignment, known, table):
    """The faults of what an assignment reads, where these names are known."""
    faults = []
    for token in assignment.leaves:
        kind = kind_of(token.text)
        if kind == 'name' and token.text not in known:
            faults.append(Fault('unknown name', token, assignment.section))
        elif kind == 'look':
            faults += look_faults(token, assignment.section, table)
    return faults


def look_faults(token, section, table):
    """The fault of a look, if it has one."""
    tag, values = look_of(token.text)
    if section == 'global':
        return [Fault('wrong section', token, section)]
    listed = table.spellings(section, tag) if section else [b'unknown', *values]
    if listed is None:
        return [Fault('unknown tag', token, section)]
    if unlisted(values, listed):
        return [Fault('unknown value', token, section)]
    return []


def unlisted(values, listed):
    """The values of a look that aren't among the listed ones."""
    return [value for value in values if value != b'unknown' and value not in listed]
