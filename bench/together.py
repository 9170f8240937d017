"""Tries edits of a crate together: what `bench/wrong-bodies -t` does in its copy of the repository.

    python3 together.py NAME    tries crates/NAME/must-fail/*.edit, of a crate that was checked here

Edits of different functions are applied at once, and the crate is checked. An edit is refused where a goal of its own function (or of
the cycle of calls that it is in) wasn't proved. Where its function failed for another's sake alone, its goals weren't tried, so it is
tried again in the next check. A refusal that complains only of names in a proof file says little of the contract, and is told so.
The status is 0 where each edit was refused, and for more than such names.
"""
import pathlib
import re
import subprocess
import sys

FUNCTION = re.compile(r'^[ \t]*(?:pub(?:\([a-z]+\))? )?(?:const )?fn (\w+)', re.M)
CYCLE = re.compile(r'#\[cycle\((\w+)\)\]\s*\Z')
NAMES = re.compile(r'has no field|is not in scope|has no `|was not admitted')


def pairs(text):
    """(file, old, new) of each change of an edit."""
    path = old = None
    for line in text.split('\n'):
        if line.startswith('file: '):
            path = line[6:].strip()
        elif line.startswith('old: '):
            old = line[5:]
        elif line.startswith('new:'):
            yield path, old, line[4:].removeprefix(' ')


def owner(text, old):
    """The function in which a text stands, or its cycle of calls as +NAME; None where it is in none."""
    found = [it for it in FUNCTION.finditer(text) if it.start() <= text.find(old) + len(old)]
    if not found:
        return None
    cycle = CYCLE.search(text[:found[-1].start()])
    return f'+{cycle[1]}' if cycle else found[-1][1]


class Edit:
    def __init__(self, crate, path):
        self.name = path.stem
        self.pairs = list(pairs(path.read_text(encoding='utf-8')))
        self.owners = {(at, owner((crate / at).read_text(encoding='utf-8'), old)) for at, old, _ in self.pairs if at.startswith('src/')}
        # what is in no function, as a constant or a definition, is seen by all that read it
        self.alone = not self.owners or any(function is None for _, function in self.owners)

    def applied(self, crate, texts):
        """The texts of the files with this edit too, None where it can't be applied to them."""
        texts = dict(texts)
        for at, old, new in self.pairs:
            text = texts[at] if at in texts else (crate / at).read_text(encoding='utf-8')
            if text.count(old) != 1:
                return None
            texts[at] = text.replace(old, new)
        return texts

    def told(self, lines):
        """What was said of goals of its own functions; of any, where it is in none."""
        if self.alone:
            return [it for it in lines if re.match(r'\S+:\d+:\d+: error|fn \S+: no proof: .*did not prove', it)]
        said = []
        for _, function in self.owners:
            name = re.escape(function)
            answers = re.compile(rf'\S*proofs/\S*/?{name}/\w+\.antt:\d+:\d+: error')
            search = re.compile(rf'.*: no proof: .*proofs/\S*/?{name}/\w+\.antt; `search` did not prove')
            said += [it for it in lines if answers.match(it) or search.match(it)]
        return said

    def unproved(self, lines):
        """Whether a function of its name was not proved, for whatever reason."""
        names = '|'.join(re.escape(function.lstrip('+')) for _, function in self.owners if function)
        return self.alone or any(re.match(rf'(fn|impl) \S*\b({names})\b.*: no', it) for it in lines)


def check(crate, texts):
    """The status and the lines of a check of the crate with these texts."""
    was = {at: (crate / at).read_text(encoding='utf-8') for at in texts}
    try:
        for at, text in texts.items():
            (crate / at).write_text(text, encoding='utf-8')
        ran = subprocess.run(['rt', 'check', '--jobs', '1'], cwd=crate, stdout=subprocess.PIPE, stderr=subprocess.STDOUT, text=True, errors='replace')
    finally:
        for at, text in was.items():
            (crate / at).write_text(text, encoding='utf-8')
    return ran.returncode, ran.stdout.split('\n')


def batch(crate, edits):
    """As many of the edits as can be told apart in one check, and the crate's texts with them."""
    texts, taken, used = {}, [], set()
    for edit in edits:
        new = None if edit.alone and taken or used & edit.owners else edit.applied(crate, texts)
        if new is None:
            continue
        texts, used = new, used | edit.owners
        taken.append(edit)
        if edit.alone:
            break
    return taken, texts


def verdict(edit, taken, status, lines):
    """What the check says of the edit, None where it has to be tried again."""
    said = edit.told(lines)
    of_contract = [it for it in said if not NAMES.search(it)]
    if of_contract:
        return True, f'refused: {of_contract[0][:200]}'
    if said:
        return False, f'REFUSED ONLY FOR NAMES in a proof file, which says little of the contract: {said[0][:200]}'
    if not any(it.startswith('logic=') for it in lines):
        why = next((it for it in lines if re.search(r'\berror\b', it)), lines[0])
        return (False, f'BAD EDIT: {why[:200]}') if taken == [edit] else None
    if not edit.unproved(lines):
        return False, 'NOT REFUSED'
    return (True, 'refused: its function is not proved') if taken == [edit] else None


def main():
    crate = pathlib.Path('crates', sys.argv[1])
    left = [Edit(crate, it) for it in sorted((crate / 'must-fail').glob('*.edit'))]
    well = True
    alone = False
    while left:
        taken, texts = batch(crate, left[:1] if alone else left)
        if not taken:
            print(f'{left[0].name}: BAD EDIT: it cannot be applied', flush=True)
            well = False
            left = left[1:]
            continue
        status, lines = check(crate, texts)
        found = {edit: verdict(edit, taken, status, lines) for edit in taken}
        for edit, said in found.items():
            if said:
                print(f'{edit.name}: {said[1]}', flush=True)
                well = well and said[0]
        # where nothing was told of any, one of them kept the crate from the prover: then one by one
        alone = not any(found.values())
        left = [it for it in left if not found.get(it)]
    return 0 if well else 1


if __name__ == '__main__':
    sys.exit(main())
