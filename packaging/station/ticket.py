"""The ticket of a document: what its owner chose of paper, sides and colour.

Behind the `%%EOF` of a PDF stands a line, as

  %ticket media=A4 sides=two-sided-long-edge print-color-mode=monochrome

The name of a job that came by the front tells the words of its documents' tickets too, behind a mark, as

  Essay #1f2e3d4c media=A4 sides=two-sided-long-edge print-color-mode=monochrome
"""
import re

import ipp

# Job attributes (RFC 8011 section 5.2, PWG 5100.3, PWG 5100.13) that a ticket may have, with their syntaxes.
SYNTAXES = {'media': ipp.KEYWORD, 'media-source': ipp.KEYWORD, 'media-type': ipp.KEYWORD, 'sides': ipp.KEYWORD,
            'print-color-mode': ipp.KEYWORD, 'print-quality': ipp.ENUM, 'finishings': ipp.ENUM, 'output-bin': ipp.KEYWORD}
# How far behind the last `%%EOF` a ticket may end.
MOST_TAIL = 1024

# The names of drivers for media, beside those of PWG 5101.1 that devices tell.
MEDIA = {'A3': 'iso_a3_297x420mm', 'A4': 'iso_a4_210x297mm', 'A5': 'iso_a5_148x210mm', 'A6': 'iso_a6_105x148mm',
         'B4': 'jis_b4_257x364mm', 'B5': 'jis_b5_182x257mm', 'ISOB4': 'iso_b4_250x353mm', 'ISOB5': 'iso_b5_176x250mm',
         'EnvC5': 'iso_c5_162x229mm', 'EnvC6': 'iso_c6_114x162mm', 'EnvDL': 'iso_dl_110x220mm',
         'Env10': 'na_number-10_4.125x9.5in', 'Letter': 'na_letter_8.5x11in', 'Legal': 'na_legal_8.5x14in',
         'Tabloid': 'na_ledger_11x17in', 'Ledger': 'na_ledger_11x17in', 'Executive': 'na_executive_7.25x10.5in',
         'Statement': 'na_invoice_5.5x8.5in'}
SHORT = {long: short for short, long in MEDIA.items()}
# What a printer can do that does not say so.
ALWAYS = {'sides': 'one-sided', 'print-color-mode': 'monochrome'}


class Bad(Exception):
    """A line `%ticket` that no station understands."""


def read(data):
    """The attributes of a document's ticket, none where it has no ticket."""
    end = data.rfind(b'%%EOF')
    if b'%PDF-' not in data[:1024] or end < 0:
        return {}
    found = re.findall(rb'^%ticket(?: ([^\r\n]*))?\r?$', data[end:end + MOST_TAIL], re.MULTILINE)
    if not found:
        return {}
    return dict(choices(found[-1].decode('ascii', 'replace').split()))


def choices(words):
    """Name and value of each word NAME=VALUE."""
    pairs = []
    for word in words:
        name, _, value = word.partition('=')
        if name not in SYNTAXES or not re.fullmatch('[A-Za-z0-9._-]+', value):
            raise Bad(word)
        if SYNTAXES[name] == ipp.ENUM and not re.fullmatch('[1-9][0-9]{0,4}', value):
            raise Bad(word)
        pairs.append((name, int(value) if SYNTAXES[name] == ipp.ENUM else value))
    return pairs


def split(name):
    """A job's title, and the choices that its name tells behind it. Other names are titles."""
    found = re.fullmatch(r'(.*) #[0-9a-f]{8}((?: \S+=\S+)*)', name, re.DOTALL)
    try:
        return (found[1], choices(found[2].split())) if found else (name, [])
    except Bad:
        return name, []


def lacking(chosen, supported):
    """Those choices that are not among what a device supports, each as NAME=VALUE."""
    return [f'{name}={value}' for name, value in chosen
            if value != ALWAYS.get(name) and not {value, MEDIA.get(value)} & set(supported.get(f'{name}-supported', []))]


def attributes(ticket):
    """The ticket as attributes of a job."""
    return [(SYNTAXES[name], name, [value]) for name, value in ticket.items()]


def offer(supported):
    """What a device has, as people say it."""
    media = [SHORT[name] for name in supported.get('media-supported', []) if name in SHORT]
    sides = any(side.startswith('two-sided') for side in ipp.texts_of(supported, 'sides-supported'))
    colour = 'color' in supported.get('print-color-mode-supported', [])
    return f"{', '.join(media)}; {'one- and two-sided' if sides else 'one-sided'}; {'colour' if colour else 'black and white'}"
