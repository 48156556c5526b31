"""The values of the global section's variables, and what of them the program refuses at every ride."""
from profiles.context import ELEVATION_NAMES, of_section
from profiles.words import MOST, OPERANDS, kind_of, millionths

ONE = 10**6
BY_ZERO = 'division by zero'
TOO_LARGE = 'number too large'


def cut(number, divisor):
    """A quotient, cut toward zero."""
    quotient = abs(number) // abs(divisor)
    return quotient if (number < 0) == (divisor < 0) else -quotient


def ranged(number):
    return number if abs(number) <= MOST else TOO_LARGE


def quotient(first, second):
    return ranged(cut(first * ONE, second)) if second else BY_ZERO


OF_TWO = {
    b'or': lambda _, second: ONE * bool(second),
    b'and': lambda _, second: ONE * bool(second),
    b'xor': lambda first, second: ONE * (bool(first) != bool(second)),
    b'multiply': lambda first, second: ranged(cut(first * second, ONE)),
    b'divide': quotient,
    b'add': lambda first, second: ranged(first + second),
    b'sub': lambda first, second: ranged(first - second),
    b'max': max,
    b'min': min,
    b'equal': lambda first, second: ONE * (first == second),
    b'greater': lambda first, second: ONE * (first > second),
    b'lesser': lambda first, second: ONE * (first < second),
}


def is_fault(value):
    return isinstance(value, str)


def applied(operator, operands):
    """The value of an operator, or the first fault that it meets; an operand that it skips may have one."""
    first, *others = operands
    if is_fault(first):
        return first
    if operator == b'not':
        return ONE * (not first)
    if operator in (b'if', b'switch'):
        return others[0] if first else others[1]
    if operator == b'and' and not first:
        return 0
    if operator == b'or' and first:
        return ONE
    return others[0] if is_fault(others[0]) else OF_TWO[operator](first, others[0])


def leaf_value(text, known):
    """The value of a number, of a word or of a variable."""
    if kind_of(text) == 'name':
        return known[text]
    return ONE * (text == b'true') if text in (b'true', b'false') else millionths(text)


def value_of(tokens, known):
    """The value of an expression in millionths where these variables are known, or the fault that it meets: from the last token to the
    first, since an operator stands before its operands."""
    values = []
    for token in reversed(tokens):
        if kind_of(token.text) in ('open', 'close', 'equals', 'then', 'else'):
            continue
        count = 3 if token.text == b'if' else OPERANDS.get(token.text, 0)
        operands = [values.pop() for _ in range(count)]
        values.append(applied(token.text, operands) if operands else leaf_value(token.text, known))
    return values.pop()


def global_values(reader):
    """The values of the global section's variables with the assignments that gave them, and the assignment that met a fault with
    it. Only for a section without other faults."""
    known, by = {}, {}
    for each in of_section(reader.assignments, 'global'):
        value = value_of(reader.tokens[each.name.place + 1:each.last.place + 1], known)
        if is_fault(value):
            return known, by, (each, value)
        known[each.name.text], by[each.name.text] = value, each
    return known, by, None


def ride_faults(reader):
    """What every ride is refused for, whatever the map: each the program's words, the name's token and what to do. Only for a global
    section without other faults."""
    known, by, met = global_values(reader)
    if met:
        name, what = met[0].name, met[1]
        todo = 'give it another divisor' if what == BY_ZERO else 'a value is at most 1000000000, also before it is used'
        return [(f'global {name.text.decode()}: {what}', name, todo)]
    found = [(f'{name.decode()} is negative', by[name].name, 'write 0 or more') for name in ELEVATION_NAMES if known.get(name, 0) < 0]
    low, high = (known.get(name, ONE * int(ELEVATION_NAMES[name])) for name in (b'elevationpenaltybuffer', b'elevationmaxbuffer'))
    if 0 <= high < low:
        refusal = f'elevationmaxbuffer {decimal(high)} is below elevationpenaltybuffer {decimal(low)}'
        name = (by.get(b'elevationmaxbuffer') or by[b'elevationpenaltybuffer']).name
        found.append((refusal, name, 'the first has to be at least the second; without an assignment it is 10, the second 5'))
    return found


def decimal(number):
    return f'{number // ONE}.{number % ONE:06}'
