"""What the schemas of docs/ ask of a value, of JSON Schema (draft 2020-12) as far as these use it."""
import json
import os
import re

from live import TOOLS

TYPES = {'object': dict, 'array': list, 'string': str, 'boolean': bool, 'integer': int, 'number': (int, float),
         'null': type(None)}
WORDS = {'$schema', '$defs', 'title', 'description', 'examples', '$ref', 'type', 'const', 'enum', 'pattern', 'minimum', 'maximum',
         'minItems', 'maxItems', 'items', 'required', 'properties', 'additionalProperties', 'oneOf'}


def schema(name):
    with open(os.path.join(os.path.dirname(TOOLS), 'docs', name + '.schema.json'), encoding='utf-8') as file:
        return json.load(file)


def faults(value, rule, root):
    """Why a value is not as a rule says: one text for each reason."""
    assert set(rule) <= WORDS, set(rule) - WORDS
    if '$ref' in rule:
        rule = root['$defs'][rule['$ref'].removeprefix('#/$defs/')]
    if 'oneOf' in rule and sum(not list(faults(value, one, root)) for one in rule['oneOf']) != 1:
        yield 'not one of the forms'
    if 'type' in rule and (not isinstance(value, TYPES[rule['type']]) or isinstance(value, bool) != (rule['type'] == 'boolean')):
        yield '%r is no %s' % (value, rule['type'])
        return
    if 'const' in rule and value != rule['const'] or 'enum' in rule and value not in rule['enum']:
        yield '%r is another value' % (value,)
    if 'pattern' in rule and not re.search(rule['pattern'], value):
        yield '%r is another text' % value
    if 'minimum' in rule and not rule['minimum'] <= value <= rule['maximum']:
        yield '%r is out of range' % value
    if isinstance(value, list):
        if not rule['minItems'] <= len(value) <= rule['maxItems']:
            yield '%d items' % len(value)
        for item in value:
            yield from faults(item, rule['items'], root)
    if isinstance(value, dict) and 'properties' in rule:
        for name in set(rule['required']) - set(value):
            yield 'no %s' % name
        for name, member in value.items():
            if name in rule['properties']:
                yield from faults(member, rule['properties'][name], root)
            elif not rule['additionalProperties']:
                yield '%s is no member' % name
