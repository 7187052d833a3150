"""Reports as JSON, one object a line, and as a SARIF 2.1.0 log."""
import json
import os
from urllib.parse import quote

from cli.saying import VERSION

SCHEMA = 'https://json.schemastore.org/sarif-2.1.0.json'


def place_in(source, label):
    """The lines and columns of a label, from 1, where it is a span of the source."""
    span = source.span(label.start, label.end) if source else None
    if span is None:
        return {}
    (line, column), (end_line, end_column) = span
    return {'startLine': line + 1, 'startColumn': column + 1, 'endLine': end_line + 1, 'endColumn': end_column + 1}


def object_of(lint, source):
    labels = [{'start': label.start, 'end': label.end, 'text': label.text, **place_in(source, label)}
              for label in lint.labels]
    made = {'category': lint.category, 'message': lint.message, 'help': lint.help, 'labels': labels,
            'function': lint.function, 'block': lint.block, 'instruction': lint.instruction}
    if source:
        made['file'] = source.name
    return made


def json_lines(lints, source):
    """One object a report."""
    return [json.dumps(object_of(lint, source), ensure_ascii=False) for lint in lints]


def region(label, source):
    """The part of the source that a label points at, or nothing where it is none."""
    made = place_in(source, label)
    if (source is None or source.encoding == 'utf-8') and label.start <= label.end:
        made |= {'byteOffset': label.start, 'byteLength': label.end - label.start}
    return made


def artifact(name):
    """The source by a reference that is relative where its name is."""
    return {'uri': quote(name.replace(os.sep, '/'), safe="/:~!$&'()*+,;=@") if name else 'unknown'}


def name_of(source):
    return source.name if source else None


def location(label, source):
    physical = {'artifactLocation': artifact(name_of(source)), 'region': region(label, source)}
    if not physical['region']:
        del physical['region']
    made = {'physicalLocation': physical}
    if label.text:
        made['message'] = {'text': label.text}
    return made


def result(lint, source):
    """The result of a report: its first label is its location, and the others are related."""
    text = lint.message + ('\n' + lint.help if lint.help else '')
    made = {'ruleId': lint.category, 'level': 'error', 'message': {'text': text},
            'properties': {'function': lint.function, 'block': lint.block, 'instruction': lint.instruction,
                           'labels': [[label.start, label.end, label.text] for label in lint.labels]}}
    if lint.labels:
        made['locations'] = [location(lint.labels[0], source)]
    elif source:
        made['locations'] = [{'physicalLocation': {'artifactLocation': artifact(name_of(source))}}]
    if lint.labels[1:]:
        made['relatedLocations'] = [{'id': number, **location(label, source)}
                                    for number, label in enumerate(lint.labels[1:])]
    return made


def driver_of(lints):
    """What a run says of the tool, with the rules of these reports."""
    rules = [{'id': name, 'shortDescription': {'text': name}} for name in sorted({lint.category for lint in lints})]
    return {
        'tool': {'driver': {'name': 'jirrambeo', 'version': VERSION, 'rules': rules}}, 'columnKind': 'unicodeCodePoints'
    }


def sarif(lints, source):
    """The log of one run."""
    run = {**driver_of(lints), 'results': [result(lint, source) for lint in lints]}
    return json.dumps({'$schema': SCHEMA, 'version': '2.1.0', 'runs': [run]}, indent=2, ensure_ascii=False)
