"""How the files that are made from the transcripts are laid out, stored and checked."""
import sys
import textwrap

from scan import ROOT


def constant(name, kind, length, numbers):
    """A constant array of the crate's source under the name of its length, as `rt fmt` lays it out."""
    rows = textwrap.fill(' '.join(f'{number},' for number in numbers), 100, initial_indent='    ', subsequent_indent='    ')
    return f'const {name}: [{kind}; {length}] = [\n{rows}\n];\n'


def definition(name, kind, items, width):
    """A list of the crate's specs, `width` items a line."""
    lines = [' ∷ '.join(items[at:at + width]) for at in range(0, len(items), width)]
    return f'unfoldable pub {name} : List {kind}\n{name} =\n' + ''.join(f'    {line} ∷\n' for line in lines) + '    []\n'


def printed(number, places):
    """A figure as the report prints it."""
    digits = f'{abs(number):0{places + 1}}'
    return '-' * (number < 0) + digits[:-places] + '.' + digits[-places:]


def page_table(head, rows):
    """A table of a page in docs/."""
    return '\n'.join('| ' + ' | '.join(map(str, row)) + ' |' for row in [head, ['---'] * len(head), *rows]) + '\n'


def store(files):
    """Writes the files; with --check writes none, and ends with 1 at the first that is not stored as made."""
    check = sys.argv[1:] == ['--check']
    if sys.argv[1:] and not check:
        sys.exit(f'usage: {sys.argv[0]} [--check]')
    for name, text in files.items():
        path = ROOT / name
        if not check:
            path.parent.mkdir(parents=True, exist_ok=True)
            path.write_text(text, 'utf-8')
        elif not path.is_file() or path.read_text('utf-8') != text:
            sys.exit(f'{name}: not what {sys.argv[0]} makes')
