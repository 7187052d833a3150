"""Why ranges end, of all identifiers of a function: by one call of `explain` where the program takes it, or by one for
each identifier. The calls go side by side."""
from concurrent.futures import ThreadPoolExecutor

from cli.pages import identifiers_of
from cli.results import explained, explained_all

WORDS = 2  # the status of words that are no command


def answers_of(questions, program, data):
    """The status and the text of each question, as many at once as the program takes."""
    with ThreadPoolExecutor(program.AT_ONCE) as pool:
        return list(pool.map(lambda words: program.ask(words, data), questions))


def by_function(functions, program, data):
    """What is told of functions as a whole, or None where the program doesn't take such a question."""
    questions = [['explain', function['name']] for function in functions]
    first = answers_of(questions[:1], program, data)
    if first[0][0] == WORDS:
        return None
    answers = first + answers_of(questions[1:], program, data)
    return {function['name']: explained_all(text.decode()) if status == 0 else {}
            for function, (status, text) in zip(functions, answers)}


def by_identifier(functions, ranges, program, data):
    """What is told of each identifier that has a range."""
    pairs = [(function['name'], identifier) for function in functions
             for identifier in identifiers_of(function) if identifier in ranges]
    made = {function['name']: {} for function in functions}
    answers = answers_of([['explain', name, str(identifier)] for name, identifier in pairs], program, data)
    for (name, identifier), (status, text) in zip(pairs, answers):
        if status == 0:
            made[name][identifier] = explained(text.decode())
    return made


def explanations(functions, ranges, program, data):
    """Why the range of each identifier ends, by function. Data is the unit."""
    if not functions:
        return {}
    told = by_function(functions, program, data)
    return by_identifier(functions, ranges, program, data) if told is None else told
