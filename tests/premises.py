"""The premises of a promise: what stands before the last arrow of its statement, in the words of its definition."""
import re

BINDERS = re.compile(r'[({][^(){}]* : .*[)}]$')
LET = re.compile(r'^let .*? in (?=\S)')
HEAD = re.compile(r"[^\W\d][\w'\-]*(?:\.[^\W\d][\w'\-]*)*")
# Of a law of the trace: from a fresh card of a configuration in range on, for every list of events at its lines, and every line.
ALWAYS = 'Always'
FIELD = re.compile(r'^  pub (\w+) : ?(.*)$')
# A statement about one outcome of a call: which, and what it says then.
OUTCOME = re.compile(r'^(OnOk|IfOk|OnErr|IfErr) result \((?:λ \w+\. )?(.*)\)$')
OUTCOMES = {'OnOk': 'result is Ok', 'IfOk': 'result is Ok', 'OnErr': 'result is Err', 'IfErr': 'result is Err'}


def parts_at(text, sign):
    """A text split where a sign stands outside of all brackets."""
    parts, depth, at = [''], 0, 0
    while at < len(text):
        if not depth and text.startswith(sign, at):
            parts.append('')
            at += len(sign)
            continue
        depth += {'(': 1, '{': 1, ')': -1, '}': -1}.get(text[at], 0)
        parts[-1] += text[at]
        at += 1
    return [it.strip() for it in parts]


def without_lets(text):
    """What follows the words that a statement begins with."""
    while LET.match(text):
        text = LET.sub('', text, count=1)
    return text


def is_binders(text):
    """Whether this is names with their types alone."""
    return all(BINDERS.match(it) for it in parts_at(re.sub(r'(?<=[)}]) +(?=[({])', '\0', text), '\0'))


def of_statement(text):
    """The premises in a statement."""
    text = ' '.join(text.split())
    found = OUTCOME.match(text)
    if found:
        return [OUTCOMES[found.group(1)]] + of_statement(found.group(2))
    *before, _ = parts_at(text, ' → ')
    return [it for it in map(without_lets, before) if it and not is_binders(it)]


def of_record(lines, specs, files):
    """The premises of the fields of a record that is a statement, by their names; of a field that is such a record of another file,
    those of its fields."""
    found, texts, name = {}, {}, None
    for line in lines:
        field = FIELD.match(line)
        name, text = field.groups() if field else (name, line)
        if name:
            texts[name] = texts.get(name, '') + ' ' + text
    for name, text in texts.items():
        inner = HEAD.fullmatch(text.strip()) and specs.meaning(text.strip())
        at = files.get(inner[:2]) if inner else None
        if at not in (None, specs) and 'record ' in at.definitions.get(inner[2], [''])[0]:
            found.update({'%s.%s' % (name, it): them for it, them in of_record(at.definitions[inner[2]], at, files).items()})
        else:
            found[name] = of_statement(text)
    return found


def of_definition(lines, specs, files):
    """The premises of a statement that has a name: by its fields if it is a record, and else under ''."""
    if 'record ' in lines[0]:
        return of_record(lines, specs, files)
    equation = ' '.join(' '.join(it.split(' -- ')[0].split()) for it in lines if not it.startswith(('abbrev ', 'unfoldable ', 'pub ')))
    _, sign, right = equation.partition(' = ')
    return {'': of_statement(right)} if sign else {}


def of_claim(text, specs, files):
    """The premises of a claim, and of the statements that it names, under ''; those of a record's fields by their names, if they
    differ. What has the premises of `Always` says so by that word."""
    text = ' '.join(text.split())
    shared, named = of_statement(text), {}
    if shared or OUTCOME.match(text):
        text = parts_at(text, ' → ')[-1]
    for word in HEAD.findall(text):
        key = specs.meaning(word)
        at = files.get(key[:2]) if key else None
        if word == ALWAYS:
            shared.append(ALWAYS)
        elif at is not None and key[2] in at.definitions and key[2][0].isupper():
            found = of_definition(at.definitions[key[2]], at, files)
            them = list(found.values())
            if them and all(it == them[0] for it in them):
                shared += [it for it in them[0] if it not in shared]
            else:
                named.update({name: it for name, it in found.items() if it})
    return {**({'': shared} if shared or not named else {}), **{name: shared + them for name, them in named.items()}}
