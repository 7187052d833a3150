"""A check of a value by a JSON schema, of the words that the schemas of this repository use: docs/unit.schema.json
and data/sarif.schema.json."""
import re

TYPES = {'object': dict, 'array': list, 'string': str, 'boolean': bool, 'null': type(None)}


def has_type(name, value):
    if name == 'integer':
        return isinstance(value, int) and not isinstance(value, bool)
    return isinstance(value, TYPES[name])


def resolved(schema, root):
    for part in schema['$ref'].removeprefix('#/').split('/'):
        root = root[part]
    return root


def of_object(schema, value, root, at):
    known = schema.get('properties', {})
    for key in schema.get('required', ()):
        if key not in value:
            yield '%s/%s is missing' % (at, key)
    for key, part in value.items():
        if key in known:
            yield from faults(known[key], part, root, '%s/%s' % (at, key))
        elif schema.get('additionalProperties') is False:
            yield '%s/%s is not known' % (at, key)


def of_array(schema, value, root, at):
    if not schema.get('minItems', 0) <= len(value) <= schema.get('maxItems', len(value)):
        yield '%s has %d items' % (at, len(value))
    if schema.get('uniqueItems') and any(item in value[:number] for number, item in enumerate(value)):
        yield '%s has an item twice' % at
    front = schema.get('prefixItems', [])
    for number, item in enumerate(value):
        part = front[number] if number < len(front) else schema.get('items', {})
        yield from faults(part, item, root, '%s/%d' % (at, number))


def of_scalar(schema, value, at):
    if isinstance(value, str) and 'pattern' in schema and not re.search(schema['pattern'], value):
        yield '%s is %r' % (at, value)
    if has_type('integer', value) and not schema.get('minimum', value) <= value <= schema.get('maximum', value):
        yield '%s is %d' % (at, value)


def faults(schema, value, root=None, at=''):
    """What is wrong with a value by a schema, in words, each with the JSON Pointer of what it is wrong with."""
    root = schema if root is None else root
    if schema is True or schema == {}:
        return
    if '$ref' in schema:
        yield from faults(resolved(schema, root), value, root, at)
    for name, enough in (('oneOf', lambda count: count == 1), ('anyOf', lambda count: count > 0)):
        if name in schema and not enough(sum(not list(faults(part, value, root, at)) for part in schema[name])):
            yield '%s is none of the forms' % at
    names = schema.get('type', [])
    names = [names] if isinstance(names, str) else names
    if names and not any(has_type(name, value) for name in names):
        yield '%s is no %s' % (at, ' or '.join(names))
        return
    if ('const' in schema and schema['const'] != value) or ('enum' in schema and value not in schema['enum']):
        yield '%s is %r' % (at, value)
    if isinstance(value, dict):
        yield from of_object(schema, value, root, at)
    elif isinstance(value, list):
        yield from of_array(schema, value, root, at)
    else:
        yield from of_scalar(schema, value, at)
