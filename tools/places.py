#!/usr/bin/env python3
"""Counts the places in src/ that docs/DESIGN-PASS.md is about, point by point: `python3 tools/places.py [--list]`.

Numbers for kinds, parallel arrays and lengths are known by the names that they had when the work began, so another name would
hide one: they were looked for by reading, too.
"""
import glob
import re
import sys

CODE = sorted(glob.glob('crates/*/src/**/*.rt', recursive=True))
PROOFS = sorted(glob.glob('crates/*/proofs/**/*.antt', recursive=True))


def bare(text):
    """The text without comments and without the contracts' ghost lines."""
    text = re.sub(r'//[^\n]*', '', text)
    return re.sub(r'^ghost use[^;]*;', '', text, flags=re.M)


def blocks(text, head):
    """Each item that a pattern heads, up to the brace that closes its last block."""
    for found in re.finditer(head, text):
        depth, at, begun = 0, found.end(), False
        while at < len(text):
            if text[at] == '{':
                depth, begun = depth + 1, True
            elif text[at] == '}':
                depth -= 1
                if begun and depth == 0 and not re.match(r'\s*(ensures|requires|\{)', text[at + 1:]):
                    break
            at += 1
        yield found, text[found.start():at + 1]


def enums(text):
    for found, block in blocks(text, r'\benum (\w+)[^{]*'):
        inside = block[block.index('{') + 1:block.rindex('}')]
        yield found.group(1), [v.strip() for v in re.split(r',(?![^(<{]*[)>}])', inside) if v.strip()]


def functions(text):
    for found, block in blocks(text, r'\bfn (\w+)(<(?:->|<[^<>]*>|[^<>-])*>)?\s*\('):
        at, depth = found.end() - found.start() - 1, 0
        for end in range(at, len(block)):
            depth += {'(': 1, ')': -1}.get(block[end], 0)
            if depth == 0:
                break
        parameters = [p.strip() for p in re.split(r',(?![^(<\[]*[)>\]])', block[at + 1:end]) if p.strip()]
        yield found.group(1), parameters, block[end + 1:]


def body(rest):
    """What stands behind the clauses."""
    rest = re.sub(r'\b(requires|ensures)\*?\s*(\w+\s*)?\{[^{}]*(\{[^{}]*\}[^{}]*)*\}', '', rest)
    return rest[rest.find('{'):] if '{' in rest else ''


def skeleton(text):
    """The text with its names and numbers replaced by their order of first use."""
    seen = {}
    keep = {'if', 'else', 'match', 'return', 'let', 'mut', 'while', 'for', 'in', 'fn', 'true', 'false'}

    def name(found):
        word = found.group(0)
        return word if word in keep else seen.setdefault(word, f'x{len(seen)}')
    return re.sub(r'\s+', ' ', re.sub(r'\w+', name, text))


def places():
    found = {key: [] for key in (
        '1a enum of the shape of Option or Result', '1b flag or number parameter for a kind or a choice',
        '1c number told for a kind or a refusal', '1d field or element that a flag or a count says whether to read',
        '2 functions that differ in names, types or constants alone', '3 loop that counts by hand',
        '4a conversion or text by hand', '4b conversion by `as`',
        '5a function of more than eight parameters', '5b function of five to eight parameters',
        '6a parameter or local that is one of parallel arrays', '6b length or end beside a buffer',
        '6c two numbers packed into one',
        '7 choice of a step by a flag', '8a proof text, lines', '8b files of answers')}
    alike = {}
    for path in CODE:
        text = bare(open(path).read())
        crate = path.split('/')[1]
        for name, variants in enums(text):
            if len(variants) == 2 and any('(' in v for v in variants):
                found['1a enum of the shape of Option or Result'].append(f'{crate}::{name}')
        for name, parameters, rest in functions(text):
            where = f'{crate}::{name}'
            for p in parameters:
                if re.match(r'(alike|turned|stands|mark|value|w|cell|map|kind|count): (bool|u8)$', p):
                    found['1b flag or number parameter for a kind or a choice'].append(f'{where} {p}')
                if re.match(r'(cells|lefts|rights|subjects|features|children|starts|ends|group_\w+|counts|labels): &(?!(\'\w+ )?Labels)', p):
                    found['6a parameter or local that is one of parallel arrays'].append(f'{where} {p}')
                if re.match(r'(tail|sizes|end|last|upto): ', p):
                    found['6b length or end beside a buffer'].append(f'{where} {p}')
            if len(parameters) > 8:
                found['5a function of more than eight parameters'].append(f'{where} {len(parameters)}')
            elif len(parameters) > 4:
                found['5b function of five to eight parameters'].append(f'{where} {len(parameters)}')
            inner = body(rest)
            if len(inner) > 60:
                alike.setdefault(skeleton(inner), []).append(where)
            for loop in re.finditer(r'\bwhile [^{]*\{', inner):
                if re.search(r'[-+]= 1;|= \w+ [-+] 1;', inner[loop.end():]):
                    found['3 loop that counts by hand'].append(where)
            if name in ('number', 'told', 'word', 'verdict_of', 'wide', 'word_of', 'is_clash', 'eq', 'fmt_text'):
                found['4a conversion or text by hand'].append(where)
            for cast in re.findall(r'\bas (?:usize|u64|u32|u16|u8)\b', inner):
                found['4b conversion by `as`'].append(f'{where} {cast}')
            if re.search(r'if (alike|turned|stands)\b', inner):
                found['7 choice of a step by a flag'].append(where)
            if re.search(r'\* 256 \+|/ 256|% 256\)', inner):
                found['6c two numbers packed into one'].append(where)
        for line in re.findall(r'let mut (?:cells|lefts|rights|subjects|features|children|starts|ends|group_\w+|counts|labels) = \[', text):
            found['6a parameter or local that is one of parallel arrays'].append(f'{crate} {line}')
        if re.search(r'fn number\b', text):
            found['1c number told for a kind or a refusal'].append(crate)
        for item in re.findall(r'struct Item \{[^}]*', text):
            for field in re.findall(r'^\s*pub (map|target|partner|feature|child|label): (?!Option)', item, flags=re.M):
                found['1d field or element that a flag or a count says whether to read'].append(f'{crate}::Item {field}')
    for names in alike.values():
        if len(names) > 1:
            found['2 functions that differ in names, types or constants alone'].append(' = '.join(names))
    for path in PROOFS:
        found['8a proof text, lines'] += open(path).read().splitlines()
        if path.endswith('Answers.antt'):
            found['8b files of answers'].append(path)
    return found


def main():
    for point, where in places().items():
        print(f'{len(where):6} {point}')
        if '--list' in sys.argv and not point.startswith('8a'):
            for place in where:
                print(f'           {place}')


if __name__ == '__main__':
    main()
