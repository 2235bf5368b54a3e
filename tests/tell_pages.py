"""Pages of `crumb tell --in-words` on drawn plans: each sentence is read, and held to the runs.

usage: tell_pages.py CRUMB ROUNDS SEED
"""
import fractions, random, re, subprocess, sys

NAMES = ['membrane', 'potting', 'cure', 'lot', 'batch', 'A1']
MANY = {'membrane': 'membranes', 'potting': 'pottings', 'cure': 'cures', 'lot': 'lots', 'batch': 'batches'}


class Question:
    """A plan whose column a goes by the others, but for some runs; lost runs; names or none."""

    def __init__(self, draw):
        self.levels = [draw.choice([1, 2, 2, 2, 3, 4, 11]) for _ in range(draw.randint(1, 6))]
        columns = range(len(self.levels))
        self.a = draw.choice(columns)
        self.others = [i for i in columns if i != self.a and draw.random() < 0.7]
        self.runs = [self.drawn_run(draw) for _ in range(draw.randint(1, 20))]
        self.lost = sorted(draw.sample(range(len(self.runs)), draw.randint(0, min(3, len(self.runs) - 1))))
        self.left = [run for k, run in enumerate(self.runs) if k not in self.lost]
        self.named = draw.random() < 0.5
        self.name = [NAMES[i] if self.named else 'column %d' % i for i in columns]

    def drawn_run(self, draw):
        run = [draw.randrange(s) for s in self.levels]
        if draw.random() < 0.8:
            run[self.a] = sum(run[j] for j in self.others) % self.levels[self.a]
        return run

    def words(self):
        text = ''.join(','.join(map(str, row)) + '\n' for row in [self.levels] + self.runs)
        words = [str(self.a), ','.join(map(str, self.others)), '--in-words', '--lost', ','.join(map(str, self.lost))]
        return text, words + (['--names', ','.join(self.name)] if self.named else [])

    def cell(self, run):
        return tuple(run[j] for j in self.others)

    def occurring(self):
        return sorted({run[self.a] for run in self.left})

    def tells(self):
        """Whether the levels that occur are connected by runs in one cell."""
        met = [self.left[0][self.a]]
        for x in met:
            cells = {self.cell(run) for run in self.left if run[self.a] == x}
            met += sorted({run[self.a] for run in self.left if self.cell(run) in cells} - set(met))
        return sorted(met) == self.occurring()

    def figure(self):
        total, s = 0, self.levels[self.a]
        for f in self.left:
            for g in self.left:
                product = s - 1 if f[self.a] == g[self.a] else -1
                for j in self.others:
                    product *= self.levels[j] if f[j] == g[j] else 0
                total += product
        return fractions.Fraction((s - 1) * total, len(self.left) ** 2)


def listed(words):
    return [int(word) for word in re.split(', | and | or ', words)]


def levels_in(q, words):
    """The levels of the column that a phrase names."""
    name = q.name[q.a]
    if name in MANY:
        one, rest = words.split(' ', 1)
        assert one == (name if len(listed(rest)) == 1 else MANY[name])
        return listed(rest)
    return listed(re.fullmatch('levels? (.*) of ' + name, words).group(1))


def columns_in(q, words):
    return [q.name.index(word) for word in re.split(', | and ', words)] if q.named else listed(words.split(' ', 1)[1])


def hold_pair(q, f, g, shared, levels):
    """Two runs left, in one cell, with these levels."""
    assert f not in q.lost and g not in q.lost
    both = ['%s %d' % (q.name[j], q.runs[f][j]) if q.name[j] in MANY else '%d in %s' % (q.runs[f][j], q.name[j]) for j in q.others]
    assert q.cell(q.runs[f]) == q.cell(q.runs[g]) and (re.split(', | and ', shared) if shared else []) == both
    assert levels_in(q, levels) == [q.runs[f][q.a], q.runs[g][q.a]]


def hold_split(q, levels, where):
    """In every run left, one of these levels exactly where the condition holds."""
    inside = levels_in(q, levels)
    cells = {q.cell(run) for run in q.left if run[q.a] in inside}
    if ' is ' in where:
        column, entries = where.split(' is ')
        c, entries = columns_in(q, column)[0], listed(entries)
        holds = lambda run: run[c] in entries
    elif re.search(' (differ|are equal)$', where):
        c, d = columns_in(q, re.sub(' (differ|are equal)$', '', where))
        holds = lambda run: (run[c] != run[d]) == where.endswith('differ')
    else:
        columns, combinations = where.split(' are ')
        shown = {tuple(map(int, cell.split(','))) for cell in re.findall(r'\(([0-9,]*)\)', combinations)}
        more = re.search('one of ([0-9]*) more', combinations)
        assert columns_in(q, columns) == q.others and shown <= cells and len(cells) == len(shown) + int(more.group(1) if more else 0)
        holds = lambda run: q.cell(run) in cells
    assert all(holds(run) == (run[q.a] in inside) for run in q.left)


def hold_page(q, page):
    assert all(len(line) <= 78 for line in page.splitlines())
    flat = ' '.join(page.split())
    occurring, run_left = q.occurring(), 'run left' if q.lost else 'run'
    assert ' Yes' in flat if q.tells() else ' No. ' in flat
    assert len(q.occurring()) > 1 or 'nothing to tell: only level %d of' % occurring[0] in flat
    assert ('%d of the %d runs' % (len(q.left), len(q.runs)) in flat) == bool(q.lost)
    assert listed(re.search('Runs? ([0-9, and]*) w[a-z]* lost', flat).group(1)) == q.lost if q.lost else 'lost' not in flat
    absent = re.search('Levels? ([0-9, and]*) of %s occurs? in no %s:' % (q.name[q.a], run_left), flat)
    assert (listed(absent.group(1)) if absent else []) == [x for x in range(q.levels[q.a]) if x not in occurring]
    figure = re.search(r'come to ([0-9/]*)\. (Below|Only below) 1', flat)
    assert fractions.Fraction(figure.group(1)) == q.figure() and (figure.group(2) == 'Below') == (q.figure() < 1)
    rest = re.search(r'mixed in: ([^.]*)\.', flat)
    assert not rest or columns_in(q, rest.group(1)) == [i for i in range(len(q.levels)) if i != q.a and i not in q.others]
    sentences = [line for line in re.sub('\n    ', ' ', page).splitlines() if line.startswith('  ')]
    for line in sentences:
        pair = re.fullmatch(r'  Runs (\d+) and (\d+) (?:both have (.*), and|have) (.*)\.', line)
        if pair:
            hold_pair(q, int(pair.group(1)), int(pair.group(2)), pair.group(3), pair.group(4))
        else:
            hold_split(q, *re.fullmatch('  In every %s, (.*) occurs? exactly where (.*)[.]' % run_left, line).groups())
    assert len(sentences) == len(occurring) - q.tells()  # for no a group is a sentence, and each pair makes one group less
    return len(sentences)


def main(crumb, rounds, seed):
    draw, held, yes = random.Random(int(seed)), 0, 0
    for _ in range(int(rounds)):
        q = Question(draw)
        text, words = q.words()
        call = subprocess.run([crumb, 'tell'] + words, input=text, capture_output=True, text=True)
        try:
            assert call.returncode == 0 and not call.stderr
            held += hold_page(q, call.stdout)
        except (AssertionError, AttributeError, ValueError):
            print('a page that does not hold:', words, call, text, sep='\n')
            raise
        yes += q.tells()
    print('pages of tell: %s held to the runs, %d yes, %d sentences of evidence' % (rounds, yes, held))


main(*sys.argv[1:])
