"""One PDF of several, with a title, bookmarks, and links from its first pages, by qpdf."""

import json
import subprocess

# A link of this form leads to a page of the whole.
PAGE_LINK = 'https://page.invalid/'


def qpdf(*words, **options):
    return subprocess.run(['qpdf', *map(str, words)], capture_output=True, check=True, **options).stdout


def objects(path, references):
    """The greatest number of an object of a PDF, and the values of some objects by their references, as `3 0 R`, and of `trailer`."""
    words = ['--json-object=trailer', *(f'--json-object={",".join(reference.split()[:2])}' for reference in references)]
    header, found = json.loads(qpdf('--json=2', '--json-key=qpdf', *words, path))['qpdf']
    return header['maxobjectid'], {name.removeprefix('obj:'): entry['value'] for name, entry in found.items() if 'value' in entry}


def page_number(annotation):
    """The page to which a link of the form above leads, or None."""
    target = annotation.get('/A', {}).get('/URI', '') if isinstance(annotation.get('/A'), dict) else ''
    return int(target.removeprefix(f'u:{PAGE_LINK}')) if target.startswith(f'u:{PAGE_LINK}') else None


class Outline:
    """The bookmarks of a document as objects with numbers from `first` on."""

    def __init__(self, first, pages):
        self.next, self.pages, self.objects = first, pages, {}

    def reference(self):
        self.next += 1
        return f'{self.next - 1} 0 R'

    def add(self, bookmarks):
        """The reference of a new outline with (title, page, bookmarks below it)."""
        root = self.reference()
        self.objects[root] = {'/Type': '/Outlines', **self.children(root, bookmarks, is_open=True)}
        return root

    def children(self, parent, bookmarks, is_open):
        references = [self.reference() for _ in bookmarks]
        for place, (title, page, below) in enumerate(bookmarks):
            item = {'/Title': f'u:{title}', '/Parent': parent, '/Dest': [self.pages[page - 1], '/Fit']}
            item |= {'/Prev': references[place - 1]} if place else {}
            item |= {'/Next': references[place + 1]} if place + 1 < len(bookmarks) else {}
            self.objects[references[place]] = item | self.children(references[place], below, is_open=False)
        count = len(references) if is_open else -len(references)
        return {'/First': references[0], '/Last': references[-1], '/Count': count} if references else {}


def links_of(path, pages):
    """The links of some pages, by their references."""
    _, found = objects(path, pages)
    links = [link for page in pages for link in found[page].get('/Annots', []) if isinstance(link, str)]
    return {reference: value for reference, value in objects(path, links)[1].items() if reference != 'trailer'}


def linked(path, pages, count):
    """The links of the first `count` pages, with pages of the document as their targets."""
    changed = {}
    for reference, link in links_of(path, pages[:count]).items():
        if page := page_number(link):
            plain = {key: value for key, value in link.items() if key != '/A'}
            changed[reference] = plain | {'/Dest': [pages[page - 1], '/Fit']}
    return changed


def joined(parts, title, bookmarks, count, work):
    """The bytes of one PDF of all parts. The first `count` pages have links of the form above."""
    whole, changes, done = work / 'whole.pdf', work / 'changes.json', work / 'done.pdf'
    qpdf('--empty', '--pages', *parts, '--', whole)
    pages = [page['object'] for page in json.loads(qpdf('--json=2', '--json-key=pages', whole))['pages']]
    most, found = objects(whole, [])
    trailer = found['trailer']
    _, roots = objects(whole, [trailer['/Root']])
    outline = Outline(most + 1, pages)
    root, info = outline.add(bookmarks), outline.reference()
    entries = linked(whole, pages, count) | outline.objects | {
        info: {'/Title': f'u:{title}', '/Producer': 'u:WeasyPrint, qpdf'},
        trailer['/Root']: roots[trailer['/Root']] | {
            '/Outlines': root, '/PageMode': '/UseOutlines', '/Lang': 'u:en', '/ViewerPreferences': {'/DisplayDocTitle': True}}}
    values = {f'obj:{reference}': {'value': value} for reference, value in entries.items()}
    values['trailer'] = {'value': trailer | {'/Info': info}}
    header = {'jsonversion': 2, 'pdfversion': '1.7', 'pushedinheritedpageresources': False, 'calledgetallpages': False, 'maxobjectid': outline.next}
    changes.write_text(json.dumps({'qpdf': [header, values]}), encoding='utf-8')
    qpdf(f'--update-from-json={changes}', '--deterministic-id', '--object-streams=generate', whole, done)
    return done.read_bytes()
