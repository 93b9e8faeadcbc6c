"""The answer as SARIF 2.1.0."""
import os, urllib.parse

from .facts import write_json
from .program import version
from .rules import FAULTS, RULES
from .terminal import notes

SCHEMA = 'https://docs.oasis-open.org/sarif/sarif/v2.1.0/errata01/os/schemas/sarif-schema-2.1.0.json'
KINDS = {'SAFE': 'pass', 'UNSAFE': 'fail', 'UNKNOWN': 'open'}
OTHERS = {
    'safe': 'No run of the program meets a fault',
    'unknown': 'Neither a fault nor safety was found',
    'not-verified': 'The file was not verified',
}


def write(out, found, status):
    write_json(out, log(found, status))


def log(found, status):
    table = rule_table()
    places = {it['id']: at for at, it in enumerate(table)}
    kit, commit = version()
    driver = {'name': 'Forester', 'version': commit.split()[-1], 'rules': table, 'properties': {'kit': kit}}
    invocation = {'executionSuccessful': status in (0, 1, 3), 'exitCode': status}
    problems = [it for it in found if it.verdict not in KINDS and it.verdict != 'refused']
    if problems:
        invocation['toolExecutionNotifications'] = [
            {'level': 'error', 'message': {'text': it.message or it.verdict}, 'locations': [location(it, None, None)]}
            for it in problems
        ]
    run = {
        'tool': {'driver': driver},
        'columnKind': 'unicodeCodePoints',
        'invocations': [invocation],
        'artifacts': [{'location': {'uri': uri(it.file)}, 'sourceLanguage': 'c'} for it in found],
        'results': [result(it, places) for it in found],
    }
    return {'$schema': SCHEMA, 'version': '2.1.0', 'runs': [run]}


def rule_table():
    table = [
        {'id': it.name, 'shortDescription': {'text': it.text}, 'fullDescription': {'text': it.met}}
        for it in FAULTS.values()
    ]
    table += [{'id': name, 'shortDescription': {'text': text}} for name, text in OTHERS.items()]
    for code, rule in RULES.items():
        table.append(
            {
                'id': code,
                'shortDescription': {'text': rule.head},
                'help': {'text': rule.help},
                'fullDescription': {'text': rule.sentence or rule.head},
            }
        )
    return table


def result(found, places):
    rule = {'SAFE': 'safe', 'UNKNOWN': 'unknown'}.get(found.verdict, 'not-verified')
    if found.verdict == 'UNSAFE':
        rule = FAULTS[found.report.fault].name if found.report.fault in FAULTS else rule
    elif found.verdict == 'refused' and found.rule in RULES:
        rule = found.rule
    kind = KINDS.get(found.verdict, 'fail')
    text = '. '.join(it[:1].upper() + it[1:] for it in [found.message or found.verdict, *found.sentences])
    told = {
        'ruleId': rule,
        'ruleIndex': places[rule],
        'kind': kind,
        'level': 'error' if kind == 'fail' else 'none',
        'message': {'text': text},
        'locations': [location(found, found.line, found.column)],
    }
    if found.verdict == 'refused' and len(found.places) > 1:
        told['relatedLocations'] = [
            {'id': at, **location(found, it.line, it.column), 'message': {'text': f'{it.rule}: {it.word}'}}
            for at, it in enumerate(found.places[1:], 1)
        ]
    if found.steps:
        told['codeFlows'] = [{'threadFlows': [{'locations': flow(found)}]}]
    return told


def flow(found):
    """The path: a location for each note, and for each step that changes nothing."""
    return [
        {
            'location': {**location(found, it.line, None), 'message': {'text': it.text}},
            'nestingLevel': it.depth,
            'executionOrder': it.steps[0] if it.steps[0] > 0 else 1,
            'importance': 'essential' if it.said else 'unimportant',
        }
        for it in notes(found, True)
    ]


def location(found, line, column):
    """A place in the file; columns are those of characters."""
    physical = {'artifactLocation': {'uri': uri(found.file)}}
    if line:
        region = {'startLine': line}
        if found.source and 0 < line <= len(found.source.lines):
            region['snippet'] = {'text': found.source.line(line)[:1000]}
        if column and found.source:
            region['startColumn'] = found.source.character(line, column)
        physical['region'] = region
    return {'physicalLocation': physical}


def uri(file):
    """The name of a file as a relative or absolute reference."""
    quoted = urllib.parse.quote(os.fsencode(file).replace(os.sep.encode(), b'/'))
    return 'file://' + quoted if os.path.isabs(file) else './' + quoted if ':' in file.split('/')[0] else quoted
