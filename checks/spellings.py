"""Lines of puts and of batches of writes in many spellings, as pairs that mean the same: spellings.py SEED COUNT PLAIN OTHER.

A put and a batch are read straight from the text of their bodies where that is spelled plainly, and as JSON trees where it isn't. PLAIN gets
puts, batches and gets, and OTHER the same, but that one value of each item has a member more that is null. Such a member counts as absent, and takes
the put or the batch the long way. So a program has to say the same of both files.
"""
import json
import random
import sys

NAMES = ['sk', 'a', 'b', 'note', 'total', 'é', '日本', 'a b', 'x' * 30, 'Item', 'S', 'M', '']
NUMBERS = ['0', '-1', '1.50', '1e3', '-0', '00012', '1e125', '9' * 38, '9' * 39, '1e126', '1e-131', 'abc', '', '+5', ' 1']
TEXTS = ['', 'a', 'hello', 'é', '日本', '\n', '"', '\\', 'x' * 40]
BINARIES = ['', 'AAEC', 'AAECAwQFBgc=', 'AA==', 'A', 'AA=', '????']
random_ = random.Random(int(sys.argv[1]))
pick, chance = random_.choice, random_.random


def spelled(text):
    """A JSON text in one of three spellings."""
    way = chance()
    if way < 0.6:
        return json.dumps(text, ensure_ascii=False)
    if way < 0.9:
        return json.dumps(text)
    return '"' + ''.join(f'\\u{ord(c):04x}' for c in text) + '"'


def space():
    return pick(['', '', '', '', ' ', '\t', '  '])


def object_of(members):
    return '{' + space() + (',' + space()).join(spelled(k) + space() + ':' + space() + v for k, v in members) + space() + '}'


def array_of(elements):
    return '[' + space() + (',' + space()).join(elements) + space() + ']'


def number():
    return pick(NUMBERS) if chance() < 0.1 else str(random_.randint(-99999, 99999))


def several(make):
    return array_of([spelled(make()) for _ in range(random_.randint(0 if chance() < 0.1 else 1, 4))])


def payload(depth):
    """A kind with its payload."""
    kinds = ['S', 'S', 'N', 'N', 'B', 'BOOL', 'NULL', 'SS', 'NS', 'BS', 'odd'] + ['L', 'M'] * (depth < 4)
    kind = pick(kinds) if chance() < 0.9 else 'S'
    if kind == 'S':
        return 'S', spelled(pick(TEXTS))
    if kind == 'N':
        return 'N', spelled(number())
    if kind == 'B':
        return 'B', spelled(pick(BINARIES))
    if kind == 'BOOL':
        return 'BOOL', pick(['true', 'false', 'false', 'true', 'null', '1'])
    if kind == 'NULL':
        return 'NULL', pick(['true', 'true', 'true', 'false', '1'])
    if kind == 'SS':
        return 'SS', several(lambda: pick(TEXTS))
    if kind == 'NS':
        return 'NS', several(number)
    if kind == 'BS':
        return 'BS', several(lambda: pick(BINARIES))
    if kind == 'L':
        return 'L', array_of([value(depth + 1) for _ in range(random_.randint(0, 4))])
    if kind == 'M':
        names = NAMES if chance() < 0.1 else NAMES[:-1]
        return 'M', object_of([(pick(names), value(depth + 1)) for _ in range(random_.randint(0, 4))])
    return pick(['S', 'L', 'M', 'X']), pick(['1', '{}', '[]', 'null', '"a"'])


def value(depth):
    if chance() < 0.02:
        levels = pick([30, 31, 32, 33, 62])
        return '{"L":[' * levels + '{"S":"x"}' + ']}' * levels
    members = [payload(depth)] + ([payload(depth)] if chance() < 0.01 else [])
    return object_of(members)


def put():
    """A put, and the same with a member more that is null in its key's value."""
    key = spelled(pick(['k1', 'k2', 'k3']))
    attributes = [(pick(NAMES if chance() < 0.02 else NAMES[:-1]), value(0)) for _ in range(random_.randint(0, 6))]
    at = random_.randint(0, len(attributes))
    more = [('ReturnValues', pick(['"ALL_OLD"', '"NONE"', '"ALL_NEW"']))] * (chance() < 0.3)
    more += [('ConditionExpression', spelled(pick(['attribute_not_exists(pk)', 'attribute_exists(a)', 'a = :v', 'bad ('])))] * (chance() < 0.2)
    more += [('ExpressionAttributeValues', object_of([(':v', value(3))]))] * (chance() < 0.2)
    more += [('Zz', pick(['1', '"x"', '{}', '[1,{"a":null}]', 'null', 'true']))] * (chance() < 0.1)
    table = ('TableName', spelled(pick(['Tab'] * 9 + ['none'])))
    bodies = []
    for of_key in (f'{{"S":{key}}}', f'{{"S":{key},"N":null}}'):
        item = object_of(attributes[:at] + [('pk', of_key)] + attributes[at:])
        members = [table, ('Item', item), *more]
        bodies.append(members)
    order = random_.sample(range(len(bodies[0])), len(bodies[0]))
    return ['PutItem ' + object_of([members[i] for i in order]) for members in bodies]


def write():
    """A write of a batch, and the same with a member more that is null in its key's value."""
    key = spelled(f'k{random_.randint(1, 9)}')
    puts = chance() < 0.7
    attributes = [(pick(NAMES[:-1]), value(0) if chance() < 0.1 else '{"S":"plain"}') for _ in range(random_.randint(0, 4))] if puts else []
    more = [('Zz', pick(['1', '{}', 'null']))] * (chance() < 0.02)
    request, name = pick([('PutRequest', 'Item'), ('DeleteRequest', 'Key')]) if chance() < 0.01 else ('PutRequest', 'Item') if puts else ('DeleteRequest', 'Key')
    both = []
    for of_key in (f'{{"S":{key}}}', f'{{"S":{key},"N":null}}'):
        both.append(object_of([(request, object_of([(name, object_of([*attributes, ('pk', of_key)])), *more]))]))
    return both


def batch():
    """A batch of writes, and the same with a member more that is null in each of its keys."""
    tables = pick([['Tab'], ['Tab', 'Uab'], ['Tab', 'Uab'], ['Uab', 'Tab'], ['Tab', 'Tab'], ['Uab', 'none']])
    writes = [[write() for _ in range(random_.randint(0 if chance() < 0.1 else 1, 26 if chance() < 0.02 else 3))] for _ in tables]
    more = [('ReturnConsumedCapacity', pick(['"NONE"', '1', '{"a":[null]}']))] * (chance() < 0.1)
    bodies = []
    for side in (0, 1):
        asked = [(table, array_of([write[side] for write in of_table])) for table, of_table in zip(tables, writes)]
        bodies.append([*more, ('RequestItems', object_of(asked))])
    return ['BatchWriteItem ' + object_of(members) for members in bodies]


with open(sys.argv[3], 'w') as plain, open(sys.argv[4], 'w') as other:
    create = 'CreateTable {"TableName":"%s","KeySchema":[{"AttributeName":"pk","KeyType":"HASH"}],"AttributeDefinitions":[{"AttributeName":"pk","AttributeType":"S"}]}'
    both = [[create % 'Tab'] * 2, [create % 'Uab'] * 2]
    for _ in range(int(sys.argv[2])):
        both.append(batch() if chance() < 0.3 else put())
        if chance() < 0.2:
            both.append(['GetItem {"TableName":"%s","Key":{"pk":{"S":"%s"}}}' % (pick(['Tab', 'Uab']), pick(['k1', 'k2', 'k3']))] * 2)
    plain.writelines(line + '\n' for line, _ in both)
    other.writelines(line + '\n' for _, line in both)
