#!/usr/bin/env python3
"""A second, plain reading of the data layer's rules, to be compared with gtm_replay.

model.py trace N    prints a trace of N mixed pushes and command arrays
model.py wide N     prints a trace with N keys, of which many differ in their last character, long
                    Lists, and every character that is escaped
model.py run FILE   prints what gtm_replay should print of that trace, over an export without entries
"""
import json
import random
import sys

LIMIT = 64
METHODS = ('push', 'pop', 'shift', 'unshift', 'reverse')


def read(text):
    """A JSON value whose Maps have their members in the order of the bytes of their keys."""
    return json.loads(text, object_pairs_hook=lambda pairs: dict(sorted(dict(pairs).items(), key=lambda p: p[0].encode())))


def written(value):
    return json.dumps(value, ensure_ascii=False, separators=(',', ':'))


def depth(value):
    if isinstance(value, dict):
        return 1 + max(map(depth, value.values()), default=0)
    if isinstance(value, list):
        return 1 + max(map(depth, value), default=0)
    return 0


def copied(value):
    return read(written(value)) if isinstance(value, (dict, list)) else value


def merged(old, new):
    """What stands where `new` is merged onto `old`."""
    if isinstance(old, dict) and isinstance(new, dict):
        for key, value in new.items():
            old[key] = merged(old[key], value) if key in old else copied(value)
        return old
    if isinstance(old, list) and isinstance(new, list):
        for at, value in enumerate(new):
            if at < len(old):
                old[at] = merged(old[at], value)
            else:
                old.append(copied(value))
        return old
    return copied(new)


def take(model, message):
    """Merges a message. False where it is ignored."""
    if not isinstance(message, dict) or any(len(key.split('.')) + depth(value) > LIMIT for key, value in message.items()):
        return False
    for key, value in message.items():
        nested = value
        for part in reversed(key.split('.')):
            nested = {part: nested}
        merged(model, nested)
    return True


def found(value, parts):
    """The value to which the parts lead, or None."""
    for part in parts:
        if isinstance(value, dict) and part in value:
            value = value[part]
        elif isinstance(value, list) and part in map(str, range(len(value))):
            value = value[int(part)]
        else:
            return None
    return value


def command(model, pushed):
    """Runs a command array. False where it is ignored."""
    if not pushed or not isinstance(pushed[0], str):
        return False
    *path, method = pushed[0].split('.')
    items = pushed[1:]
    target = found(model, path)
    if method not in METHODS or not isinstance(target, list):
        return False
    if method in ('push', 'unshift') and any(depth(item) + len(path) + 1 > LIMIT for item in items):
        return False
    if method == 'push':
        target.extend(map(copied, items))
    elif method == 'unshift':
        target[:0] = map(copied, items)
    elif method == 'pop':
        del target[-1:]
    elif method == 'shift':
        del target[:1]
    else:
        target.reverse()
    return True


def run(lines):
    model, begun = {}, False
    steps = jobs = events = 0
    for line in lines:
        if not line.strip(' \t\r\n'):
            continue
        step = read(line)
        steps += 1
        if 'push' not in step:
            continue
        waiting = [step['push']]
        if not begun and isinstance(waiting[0], dict) and waiting[0].get('event') == 'gtm.js':
            begun = True
            waiting[:0] = [{'event': 'gtm.init_consent'}, {'event': 'gtm.init'}]
        for value in waiting:
            jobs += 1
            if isinstance(value, list):
                ran = command(model, value)
                print('command', written(value) + ('' if ran else ' ignored'))
                continue
            taken = take(model, value)
            print('message', written(value) + ('' if taken else ' ignored'))
            if taken and isinstance(value.get('event'), str):
                events += 1
                print('event', events, written(value['event']))
    print('model', written(model))
    print(f'end steps={steps} jobs={jobs} events={events} starts=0 ok=0 fail=0 denied=0 faults=0')


def trace(count):
    """Pushes that build, change and replace a few Lists and Maps, and commands on them and beside them."""
    chance = random.Random(2026)
    keys = ['a', 'b', 'c', 'list', 'é', '0']
    lists = ['cart', 'shop.items', 'rows.0', 'rows.1.cells']

    def key():
        return '.'.join(chance.choice(keys) for _ in range(chance.choice((1, 1, 2, 3))))

    def value(levels):
        kind = chance.randrange(9 if levels else 5)
        if kind < 2:
            return chance.randrange(-99, 1000)
        if kind < 4:
            return chance.choice(('x', 'a "quoted" text', 'line\nfeed', 'ü', '', '\u0001', 'gtm.js'))
        if kind == 4:
            return chance.choice((True, False, None))
        if kind < 7:
            return [value(levels - 1) for _ in range(chance.randrange(4))]
        return {key(): value(levels - 1) for _ in range(chance.randrange(4))}

    def words():
        if chance.random() < 0.7:
            path = chance.choice(lists + [lists[0] + '.0'])
        else:
            path = '.'.join(chance.choice(keys + ['0', '1', '2', '01']) for _ in range(chance.choice((0, 1, 1, 1, 2, 2, 3))))
        method = chance.choice(METHODS + ('push', 'unshift', 'splice', ''))
        return path + '.' + method if path else method

    for at in range(count):
        kind = chance.randrange(20)
        if kind < 9:
            pushed = [words()] + [value(2) for _ in range(chance.choice((0, 1, 1, 2, 3)))]
        elif kind < 10:
            pushed = chance.choice(([], [7], [['a.push', 1]], 'text', 5, None, [{'a': 1}, 'b']))
        elif kind < 13:
            pushed = {chance.choice(keys + lists[:2]): [value(2) for _ in range(chance.randrange(5))]}
        elif at % 100 < 2:
            pushed = {'cart': [[1], at], 'shop.items': [], 'rows': [[at], {'cells': [at, [2, 3]]}]}
        elif kind < 14:
            pushed = {'event': chance.choice(('view', 'buy', 'gtm.js', 'gtm.dom')), 'gtm.start': at}
        else:
            pushed = {key(): value(3) for _ in range(chance.randrange(1, 4))}
        print(json.dumps({'push': pushed}, ensure_ascii=chance.random() < 0.5, separators=(',', ':')))


def wide(count):
    """One key after the other, then many in one push, and again with other values."""
    chance = random.Random(2027)

    def key(at):
        return f'key_of_some_length_{at // 7}{"abcdefg"[at % 7]}'

    def push(value):
        print(json.dumps({'push': value}, ensure_ascii=chance.random() < 0.5))

    for at in range(count):
        push({key(at): at, f'deep.{key(at)}': [at]})
    order = list(range(count))
    chance.shuffle(order)
    for part in (order, order[:64], order[:65], order[64:200]):
        push({key(at): -at for at in part})
        push({'deep': {key(at): {'now': at} for at in part}})
    push({'list': list(range(count))})
    for at in range(0, count, 100):
        push({'list': [None] * at + [{'at': at}]})
        push(['list.shift'])
        push([f'list.{at}.push', 1])
    push(['list.reverse'])
    every = ''.join(map(chr, range(0x20))) + '"\\/\x7f\u2028é\U0001f600'
    for character in every:
        push({'text': character, f'key {character}': 'a' * 300 + character})
    push({every.replace('.', ''): every})


if __name__ == '__main__':
    if sys.argv[1:2] == ['trace']:
        trace(int(sys.argv[2]))
    elif sys.argv[1:2] == ['wide']:
        wide(int(sys.argv[2]))
    else:
        with open(sys.argv[2], encoding='utf-8', newline='\n') as lines:
            run(lines)
