"""The process of the front end and the library, hosts/node/serve.js, over a stand-in for the addon; and what the
command does where it ends early, or where the addon is of other sources."""
import os
import random
import shutil
import tempfile
import unittest
from unittest import mock

from cli import front, inference
from cli.tests.installed import ROOT

# The text is the words and the input, and of a unit that "lint" is asked of the type of its root; the status is the
# length of the words. The words "end" end the process, and "long" has a text of 3 MB.
STAND_IN = r'''
'use strict';
exports.run = (words, input) => {
  if (words === 'end') process.exit(3);
  const given = words === 'lint' ? JSON.stringify(JSON.parse(input).root.fn_type) : input.toString('hex');
  return {status: words.length, text: `${words}\n${given}${words === 'long' ? 'x'.repeat(3000000) : ''}`};
};
'''


def has_front_end():
    try:
        return bool(front.node())
    except front.NoFrontEnd:
        return False


@unittest.skipUnless(has_front_end(), 'Node or the parser is not there')
class Serving(unittest.TestCase):
    @classmethod
    def setUpClass(cls):
        cls.room = tempfile.TemporaryDirectory()
        host = os.path.join(cls.room.name, 'hosts', 'node')
        os.makedirs(host)
        os.symlink(os.path.join(ROOT, 'frontend'), os.path.join(cls.room.name, 'frontend'))
        cls.server = shutil.copy(os.path.join(ROOT, 'hosts', 'node', 'serve.js'), host)
        with open(os.path.join(host, 'index.js'), 'w', encoding='ascii') as file:
            file.write(STAND_IN)

    @classmethod
    def tearDownClass(cls):
        cls.room.cleanup()

    def library(self):
        with mock.patch.object(inference, 'SERVER', self.server):
            made = inference.Library()
        self.addCleanup(made.close)
        return made

    def test_answers_one_after_the_other(self):
        library, drawn = self.library(), random.Random(1)
        for _ in range(300):
            line = 'x' * drawn.choice([0, 1, 2, 5, 9])
            data = drawn.randbytes(drawn.choice([0, 1, 7, 8, 4096, 70000]))
            self.assertEqual(library.ask([line], data), (len(line), ('%s\n%s' % (line, data.hex())).encode()))
        status, text = library.ask(['long'], b'abc')
        self.assertEqual((status, len(text), text[:11]), (4, 3000011, b'long\n616263'))
        self.assertEqual(library.ask(['explain', '1', '2'], b'{}'), (11, b'explain 1 2\n7b7d'))

    def test_each_unit_of_a_file_is_answered(self):
        told = self.library().told(['lint'], 'a.jsx', 'function C(é) { return <b/>; }\nfunction* g() {}\n'.encode())
        component, generator = told['functions']
        self.assertEqual((component['name'], component['status'], component['text']), ('C', 4, 'lint\n"Component"'))
        self.assertNotIn('unit', component)
        self.assertEqual((generator['name'], 'status' in generator, 'refused' in generator), ('g', False, True))
        told = self.library().told(['lint'], 'a.jsx', b'function (')
        self.assertEqual((told['error']['kind'], told['error']['line']), ('syntax', 1))

    def test_it_is_the_front_end_too(self):
        told = inference.units_of(self.library().front, 'a.jsx', b'function C() { return <b/>; }')
        self.assertEqual([function['unit'][:1] for function in told['functions']], [b'{'])

    def test_a_process_that_ends_is_started_again(self):
        library = self.library()
        self.assertEqual(library.ask(['end'], b''), (inference.ENDED, b''))
        self.assertEqual(library.ask(['a'], b'b'), (1, b'a\n62'))
        process = library.front.process.process
        library.close()
        self.assertIsNotNone(process.returncode)

    def test_a_process_that_is_stopped_is_started_again(self):
        library = self.library()
        self.assertEqual(library.ask(['a'], b'b'), (1, b'a\n62'))
        library.stop()
        library.front.process.process.wait()
        self.assertEqual(library.ask(['a'], b'b'), (inference.ENDED, b''))
        self.assertEqual(library.ask(['a'], b'b'), (1, b'a\n62'))

    def test_no_addon_is_taken_that_is_of_other_sources(self):
        addon = os.path.join(self.room.name, 'jirrambeo.node')
        with mock.patch.object(inference, 'ADDON', addon), mock.patch.object(inference, 'STAMP', addon + '_built_from'):
            self.assertFalse(inference.has_library())
            with open(inference.STAMP, 'w', encoding='ascii') as file:
                file.write(inference.addon_digest())
            self.assertFalse(inference.has_library())
            with open(addon, 'wb'):
                pass
            self.assertTrue(inference.has_library())
            with mock.patch.object(inference, 'digest_now', return_value='other'):
                self.assertFalse(inference.has_library())
            self.assertIsInstance(inference.inference(False), inference.Started)
            self.assertIsInstance(inference.inference(True), inference.Library)


if __name__ == '__main__':
    unittest.main()
