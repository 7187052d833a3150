"""Why the ranges of a function end: by one call where the program takes it, and else by one for each identifier."""
import threading
import unittest
from unittest import mock

from cli import explaining

FUNCTIONS = [{'name': 'root', 'params': [1], 'context': [], 'returns': 0, 'instructions': [], 'blocks': []},
             {'name': '0', 'params': [5, 6], 'context': [1], 'returns': 4, 'instructions': [], 'blocks': []}]
RANGES = {1: [1, 3], 5: [1, 2], 6: [2, 9]}
TOLD = {('root', '1'): 'range 1 3\ndefined 2\n', ('0', '5'): 'range 1 2\nunset\n',
        ('0', '6'): 'range 2 9\nmutated 7\nstep 5 local Backwards Definite\nstep 6 transitive Forwards Conditional\n'}
WANTED = {'root': {1: {'cause': 'defined', 'instruction': 2, 'path': []}},
          '0': {5: {'cause': 'unset', 'instruction': None, 'path': []},
                6: {'cause': 'mutated', 'instruction': 7, 'path': [
                    {'identifier': 5, 'transitive': False, 'forwards': False, 'definite': True},
                    {'identifier': 6, 'transitive': True, 'forwards': True, 'definite': False}]}}}


class Program:
    """A stand-in for the program, which notes what it is asked. `is_whole` says whether it takes a function alone."""
    AT_ONCE = 2

    def __init__(self, is_whole):
        self.is_whole, self.asked, self.lock = is_whole, [], threading.Lock()

    def ask(self, words, data):
        with self.lock:
            self.asked.append(words)
        if len(words) == 3:
            return 0, TOLD[tuple(words[1:])].encode()
        if not self.is_whole:
            return 2, b'refused Words\n'
        pairs = sorted((int(pair[1]), text) for pair, text in TOLD.items() if pair[0] == words[1])
        return 0, ''.join('identifier %d\n%s' % pair for pair in pairs).encode()

    def close(self):
        pass


class Explanations(unittest.TestCase):
    def told_by(self, program):
        return explaining.explanations(FUNCTIONS, RANGES, program, b'{}')

    def test_one_call_for_a_function(self):
        program = Program(True)
        self.assertEqual(self.told_by(program), WANTED)
        self.assertEqual(program.asked, [['explain', 'root'], ['explain', '0']])

    def test_a_call_for_each_identifier(self):
        program = Program(False)
        self.assertEqual(self.told_by(program), WANTED)
        self.assertEqual(sorted(program.asked), sorted([['explain', 'root'], *(['explain', *pair] for pair in TOLD)]))

    def test_answers_stand_in_the_order_of_their_questions(self):
        for at_once in (1, 4):
            program = mock.Mock(ask=lambda words, data: (0, words[0].encode()), AT_ONCE=at_once)
            for count in (0, 1, 3, 4, 5, 30):
                told = explaining.answers_of([[str(number)] for number in range(count)], program, b'')
                self.assertEqual(told, [(0, str(number).encode()) for number in range(count)])


if __name__ == '__main__':
    unittest.main()
