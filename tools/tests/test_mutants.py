"""tools/mutation.py and tools/switched.py: which wrong bodies are made of a function, and how they are switched on in one build."""
import sys
import unittest

from live import TOOLS

sys.path.insert(0, TOOLS)
import mutation
import switched

CODE = '''//! A module.
const MOST: u64 = 64;

impl<R: Wait> Sink for Held<R> {
    // Says < nothing.
    fn write(&mut self, bytes: &[u8]) -> Result<usize, Failed>
        ensures { IfOk result (λ n. n ≤ length bytes.now) }
    {
        self.count += 1;
        if bytes.len() < 8 && !self.failed {
            info!(rt; "short {}", 1 + 2);
            self.put(bytes)?;
        }
        match self.left {
            Some(left) => Ok(left.min(MOST)),
            None => Err(Failed),
        }
    }
}

fn first(one: u8, other: u8, last: bool) -> Option<u8> {
    let it = both(one, other, last);
    Some(it)
}

fn both(one: u8, other: u8, last: bool) -> u8
    requires { one.now < 2 }
{
    one
}

fn end(state: &State) {
    state.rest(0);
}
'''


def made():
    """The wrong bodies of each function, each by its kind, and what is put in the place of what."""
    signatures = mutation.signatures_of([CODE])
    return {it.path(): {(one.kind, one.old, one.new) for one in mutation.mutants_of('low', it, CODE, signatures)}
            for it in mutation.functions_in('src/lib.rt', CODE)}


class Made(unittest.TestCase):
    def test_functions_have_the_names_of_a_check(self):
        self.assertEqual([it.path() for it in mutation.functions_in('src/lib.rt', CODE)], ['HeldSink::write', 'first', 'both', 'end'])

    def test_calls_counts_and_comparisons(self):
        found = made()['HeldSink::write']
        for it in [('not counted', 'self.count += 1;', ''), ('call left out', 'self.put(bytes)?;', ''),
                   ('`?` swallowed', 'self.put(bytes)?;', 'let _ = self.put(bytes);'), ('log line left out', 'info!(rt; "short {}", 1 + 2);', ''),
                   ('comparison turned', '<', '<='), ('comparison turned', '<', '>='), ('comparison turned', '&&', '||'),
                   ('comparison turned', '!', ''), ('comparison turned', 'min', 'max'), ('constant changed', '8', '80')]:
            self.assertIn(it, found)

    def test_no_pattern_comment_or_logged_number_is_changed(self):
        found = made()['HeldSink::write']
        self.assertFalse([it for it in found if it[1] in ('Some(left)', '2') or 'nothing' in it[1]])

    def test_results_and_arguments(self):
        found = made()['first']
        self.assertIn(('arguments exchanged', 'one, other', 'other, one'), found)
        self.assertIn(('result replaced', 'Some(it)', 'None'), found)
        self.assertEqual({it[2].strip() for it in made()['both'] if it[0] == 'result replaced'}, {'0', '1'})
        self.assertIn(('call left out', 'state.rest(0);', ''), made()['end'])

    def test_constants_are_changed_by_one_and_by_ten(self):
        self.assertEqual([it.new for it in mutation.constant_items('low', 'src/lib.rt', CODE)], ['65', '640'])


class Switched(unittest.TestCase):
    def test_each_switch_has_its_number(self):
        signatures = mutation.signatures_of([CODE])
        all_of = [one for it in mutation.functions_in('src/lib.rt', CODE) for one in mutation.mutants_of('low', it, CODE, signatures)]
        numbers = {it: number for number, it in enumerate(all_of, 1)}
        text, some = switched.switched_file('src/lib.rt', CODE, all_of, numbers)
        for it in some:
            self.assertEqual(text.count(f'is_on({numbers[it]})'), 1, it)
        self.assertEqual(text.count('{'), text.count('}'))

    def test_an_operator_is_switched_with_its_operands(self):
        signatures = mutation.signatures_of([CODE])
        write = mutation.functions_in('src/lib.rt', CODE)[0]
        one = next(it for it in mutation.mutants_of('low', write, CODE, signatures) if it.new == '<=')
        text, _ = switched.switched_file('src/lib.rt', CODE, [one], {one: 7})
        self.assertIn('if (if ns_switch::is_on(7) { bytes.len() <= 8 } else { bytes.len() < 8 }) && !self.failed {', text)


if __name__ == '__main__':
    unittest.main()
