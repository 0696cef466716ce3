"""The pages of docs/generated fit the code, and each function is found there by its name; links of documents lead somewhere, and the
crates that they name are there."""
import os
import re
import subprocess
import sys
import unittest

TOOLS = os.path.dirname(os.path.dirname(os.path.abspath(__file__)))
TOP = os.path.dirname(TOOLS)


def read(*parts):
    with open(os.path.join(TOP, *parts), encoding='utf-8') as file:
        return file.read()


def pages():
    """README and the documents, by their paths."""
    found = ['README.md']
    for folder in ('docs', os.path.join('docs', 'generated')):
        found += [os.path.join(folder, name) for name in sorted(os.listdir(os.path.join(TOP, folder))) if name.endswith('.md')]
    return found


def without_code(text):
    return re.sub(r'```.*?```', '', text, flags=re.DOTALL)


def anchors(path):
    """The anchors of a page's headings, as a forge makes them."""
    heads = re.findall(r'(?m)^#+ (.*)$', without_code(read(path)))
    return {re.sub(r'[^\w\- ]', '', head.lower()).strip().replace(' ', '-') for head in heads}


class Pages(unittest.TestCase):
    def test_pages_fit_the_code(self):
        ended = subprocess.run([sys.executable, os.path.join(TOOLS, 'contract_index.py'), '--check'], capture_output=True, text=True)
        self.assertEqual(ended.stdout, '')
        self.assertEqual(ended.returncode, 0)

    def test_each_function_is_found_by_its_name(self):
        found = {name.split('::')[-1] for name in re.findall(r'`([\w:]+)`', read('docs', 'generated', 'CONTRACTS.md'))}
        for folder, folders, names in os.walk(os.path.join(TOP, 'crates')):
            folders[:] = [it for it in folders if it != 'out']
            if 'src' in folder.split(os.sep):
                for name in (name for name in names if name.endswith('.rt')):
                    functions = re.findall(r'(?m)^ {0,4}(?:pub(?:\([a-z]+\))? )?(?:const )?fn (\w+)', read(folder, name))
                    self.assertEqual([function for function in functions if function not in found], [], os.path.join(folder, name))

    def test_each_link_leads_somewhere(self):
        for page in pages():
            for link in re.findall(r'\]\(([^)\s]+)\)', without_code(read(page))):
                path, _, anchor = link.partition('#')
                if path.startswith('http'):
                    continue
                target = os.path.normpath(os.path.join(os.path.dirname(page), path)) if path else page
                self.assertTrue(os.path.exists(os.path.join(TOP, target)), '%s: %s' % (page, link))
                if anchor and target.endswith('.md'):
                    self.assertIn(anchor, anchors(target), '%s: %s' % (page, link))

    def test_each_crate_that_is_named_is_there(self):
        crates = set(re.findall(r'(?m)^(\w+):', read('crates.txt')))
        for page in pages():
            named = {name for name in re.findall(r'(?<![\w-])(ns_[a-z_]+)', read(page)) if not name.endswith('_')}
            self.assertEqual(named - crates, set(), page)


if __name__ == '__main__':
    unittest.main()
