"""The contracts of the library's entry points and the definitions in specs/ that they reach, read from the text. docs/believe and
tests/registered use it. It begins at the public functions of the library's crates, those for our own crates left out, and goes from
name to name by the `use` lines. A variable that is spelled like a definition of its file counts as that definition, so that a little
more may be reached than is cited, and never less.
"""
import os, re

WORD = re.compile(r'[^\s(){}\[\];,"@]+')
MARKS = r'(?:unfoldable |abbrev |pub )*'


def read(path):
    with open(path, encoding='utf-8') as file:
        return file.read().split('\n')


def library():
    """The crates above the heading of the programs, from the ground up."""
    for line in read('crates.txt'):
        if line.startswith('# Programs'):
            return
        if line and not line.startswith('#'):
            yield line.split(':')[0]


def module_of(path):
    """The crate and module of a `use` path into specs, the crate's own or another's; None for a library of the kit."""
    m = re.match(r'Rattle\.(\w+)\.specs\.(.*)$', path)
    return m and (m.group(1), m.group(2))


def used(lines, head):
    """What each name that the file's `use` lines bring stands for: (crate, module, name)."""
    names = {}
    for m in re.finditer(r'^%s ([^\s{]+)\.\{([^}]*)\}' % head, '\n'.join(lines), re.M):
        home = module_of(m.group(1))
        for leaf in m.group(2).split(','):
            name, _, other = leaf.strip().partition(' as ')
            if home:
                names[other or name] = (*home, name)
    return names


class Block:
    """A declaration with its comment: the lines, the names it declares, the section that it stands in."""
    def __init__(self, lines, section):
        self.lines, self.section, self.names = lines, section, set()
        first = next(l for l in lines if not l.strip().startswith('--'))
        kind = re.match(r'\s*%s(?:record|data) ([^\s:]+)' % MARKS, first)
        named = kind or re.match(r'\s*%s([^\s:]+) :' % MARKS, first)
        if named:
            self.names.add(named.group(1))
        if kind and 'data' in first:
            self.names |= {m.group(1) for l in lines for m in [re.match(r'\s+([^\s:]+) :', l)] if m}

    def words(self):
        text = '\n'.join(l for l in self.section + self.lines if not l.strip().startswith('--'))
        return set(WORD.findall(text))


def blocks(lines):
    """The declarations of a file of definitions. An empty line ends one; a `module _ ..` line heads those set in below it."""
    out, part, section = [], [], []
    def close():
        if any(not l.strip().startswith('--') for l in part):
            out.append(Block(part[:], section if part[-1].startswith('  ') else []))
        part.clear()
    header = False
    for line in lines:
        if header or re.match(r'(use|pub use|unfoldable pub use|pub mod|mod) ', line):
            header = '}' not in line and (header or '{' in line)
            continue
        if not line.strip():
            close()
        elif line.startswith('module '):
            close()
            section = [line]
        else:
            if part and not line.startswith(('  ', '--')) and re.match(r'%s\S+ :' % MARKS, line) and not part[-1].strip().startswith('--'):
                close()
            part.append(line)
            if not line.startswith(('  ', '--')):
                section = []
    close()
    return out


class Specs:
    """The definitions of every crate, by crate, module and name; a struct of the code is its own text."""
    def __init__(self, crates):
        self.files, self.home = [], {}
        for crate in crates:
            self.structs(crate)
            order = [m.group(1) for l in read_or_none('crates/%s/specs/Lib.antt' % crate) for m in [re.match(r'(?:pub )?mod (\w+)', l)] if m]
            for module in order:
                path = 'crates/%s/specs/%s.antt' % (crate, module)
                lines = read(path)
                self.add(path, crate, module, blocks(lines), used(lines, '(?:unfoldable )?(?:pub )?use'))

    def add(self, path, crate, module, parts, names):
        head = [l for l in read(path)[:1] if l.startswith('--')]
        self.files.append((path, crate, module, head, parts, names))
        for part in parts:
            for name in part.names:
                self.home[crate, module, name] = (part, crate, module, names)

    def structs(self, crate):
        for path in sources(crate):
            lines, parts, k = read(path), [], 0
            module = re.sub(r'^crates/\w+/src/|\.rt$', '', path).replace('/', '.')
            inside = '' if module == 'lib' else module + '.'
            while k < len(lines):
                m = re.match(r'pub(?:\(crate\))? (struct|enum) (\w+)', lines[k])
                if m:
                    start = k
                    while start and lines[start - 1].startswith(('//', '#[')):
                        start -= 1
                    end = k
                    while not lines[end].startswith('}') and not lines[end].rstrip().endswith(';'):
                        end += 1
                    part = Block([l for l in lines[start:end + 1] if not l.startswith('#[')], [])
                    part.lines += model_of(m.group(2), lines)
                    part.names = {m.group(2)} | {v.group(1) for l in lines[k:end] for v in [re.match(r'    (\w+)', l)] if v and m.group(1) == 'enum'}
                    parts.append(part)
                    self.home[crate, 'declared.' + inside + m.group(2), m.group(2)] = (part, crate, module, {**used(lines, 'ghost use'), **rust_names(lines, crate)})
                    for name in part.names - {m.group(2)}:
                        self.home[crate, 'declared.%s%s.TheVariants' % (inside, m.group(2)), name] = (part, crate, module, {})
                k += 1
            if parts:
                self.files.append((path, crate, module, [], parts, {}))


def model_of(name, lines):
    """Of a struct with a model: what clauses see in its place, and the contracts of its methods. Of another nothing."""
    model, methods = [], []
    for k, line in enumerate(lines):
        if re.match(r'impl\b.* Model for %s\b' % name, line):
            model += ['', *(l for l in lines[k - 1:k] if l.startswith('//')), *lines[k:lines.index('}', k) + 1]]
        elif re.match(r'impl(?:<[^>]*>)? %s\b' % name, line):
            body, calls = lines[k:lines.index('}', k)], []
            for at, head in enumerate(body):
                if head.startswith('    pub fn '):
                    calls += ['', *(l for l in body[at - 1:at] if l.startswith('    //')), *body[at:body.index('    {', at)]]
            methods += ['', line, *calls[1:], '}']
    return model and model + methods


def rust_names(lines, crate):
    """Structs that a struct's fields name: those of the same file, and those that `use` lines bring."""
    names = {}
    for m in re.finditer(r'^use ([\w:]+)::(?:(\w+)|\{([^{}]*)\});', '\n'.join(lines), re.M):
        for leaf in (m.group(2) or m.group(3)).split(','):
            path = m.group(1).split('::') + leaf.strip().split('::')
            home = crate if path[0] == 'crate' else path[0]
            if path[-1]:
                names[path[-1]] = (home, '.'.join(['declared'] + path[1:]), path[-1])
    for l in lines:
        m = re.match(r'pub(?:\(crate\))? (?:struct|enum) (\w+)', l)
        if m:
            names[m.group(1)] = (crate, 'declared.' + m.group(1), m.group(1))
    return names


def sources(crate):
    return sorted(os.path.join(at, name) for at, _, names in os.walk('crates/%s/src' % crate) for name in names if name.endswith('.rt'))


def read_or_none(path):
    return read(path) if os.path.exists(path) else []


def public_functions(path, crate):
    """The public functions of a file: (path, name, the lines of the contract, the names used)."""
    lines = read(path)
    names = used(lines, 'ghost use')
    names.update({k: v for k, v in rust_names(lines, crate).items() if k not in names})
    k = 0
    while k < len(lines):
        m = re.match(r'pub (?:extern "C" )?fn (\w+)', lines[k])
        if m:
            start = k
            while start and lines[start - 1].startswith(('//', '#[')):
                start -= 1
            end = k
            while lines[end] != '{':
                end += 1
            yield path, m.group(1), [l for l in lines[start:end] if not l.startswith('#[')], names
            k = end
        k += 1


def entry_points(crate):
    """The public functions of a crate that are not for our own crates."""
    for path in sources(crate):
        if not read(path)[0].startswith('// For our own crates') and os.path.basename(path) != 'routines.rt':
            yield from public_functions(path, crate)


def printed(crate):
    """What a program prints where no entry point says it: the routine of that crate which writes it."""
    if crate in ('tell_text', 'table_text'):
        yield from (point for point in public_functions('crates/%s/src/routines.rt' % crate, crate) if point[1] == 'write_text')


def reached(specs, points):
    """The blocks that the contracts reach."""
    seen, todo = set(), []
    def look(words, names, crate, module):
        for word in words:
            for piece in {word, word.lstrip('&'), *word.split('.')}:
                at = names.get(piece) or ((crate, module, piece) if (crate, module, piece) in specs.home else None)
                if at and at in specs.home and id(specs.home[at][0]) not in seen:
                    seen.add(id(specs.home[at][0]))
                    todo.append(specs.home[at])
    for path, name, lines, names in points:
        text = '\n'.join(l for l in lines if not l.startswith('//'))
        look(set(WORD.findall(text)) | set(re.findall(r'\w+', text)), names, '', '')
    while todo:
        part, crate, module, names = todo.pop()
        words = part.words() | set(re.findall(r'\b[A-Z]\w+', '\n'.join(part.lines)))
        look(words, names, crate, module)
    return seen


def theorems():
    """Where the theorems that docs/PROMISES.md names are declared: (the words of their statements, the names used)."""
    rows = [l for l in read('docs/PROMISES.md') if l.startswith('|')]
    named = {name for row in rows for cell in row.split('|')[2:3] for name in re.findall(r'`([^`:]+)`', cell)}
    for at, _, files in sorted(os.walk('crates')):
        for file in sorted(files):
            if '/proofs' not in at or not file.endswith('.antt'):
                continue
            lines = read(os.path.join(at, file))
            text = '\n'.join(lines)
            stated = [m.group(0) for m in re.finditer(r'^ *pub (\S+) :(?:.*\n)(?: {4,}\S.*\n)*', text, re.M) if m.group(1) in named]
            if stated:
                sections = [l for l in lines if re.match(r' *module _', l)]
                yield set(WORD.findall('\n'.join(stated + sections))), used(lines, '(?:pub )?use')


def reached_by_theorems(specs, seen):
    """The blocks that those theorems reach beyond the ones that the contracts reach."""
    points = [('', '', [' '.join(words)], names) for words, names in theorems()]
    return reached(specs, points) - seen
