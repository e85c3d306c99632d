"""The ticket: on which paper a document is to be printed, on which sides, in which colours.

It stands in a line of its own behind the end of the document, where the station finds it:

    %ticket media=iso_a4_210x297mm sides=two-sided-long-edge print-color-mode=monochrome

Its words stand in the job's name too, so that a station can look at them before it has the documents.
"""
import re

# The shorter and the longer side, in points.
MEDIA = {(420, 595): 'iso_a5_148x210mm', (595, 842): 'iso_a4_210x297mm', (842, 1191): 'iso_a3_297x420mm',
         (612, 792): 'na_letter_8.5x11in'}
TOLERANCE = 3
SIDES = {'None': 'one-sided', 'DuplexNoTumble': 'two-sided-long-edge', 'DuplexTumble': 'two-sided-short-edge'}
COLOURS = {'Gray': 'monochrome', 'RGB': 'color'}


def ticket_words(size, options, ppd):
    """The words for a document whose pages have this size. What the options leave open is as the queue's PPD has it."""
    chosen = {'media': medium(*size), 'sides': choice(SIDES, 'Duplex', 'sides', options, ppd),
              'print-color-mode': choice(COLOURS, 'ColorModel', 'print-color-mode', options, ppd)}
    return [f'{name}={value}' for name, value in chosen.items() if value]


def ticket_line(words):
    return f'%ticket {" ".join(words)}\n'


def medium(width, height):
    """The name of the paper (PWG 5101.1)."""
    sides = sorted((width, height))
    for known, name in MEDIA.items():
        if all(abs(side - of_known) <= TOLERANCE for side, of_known in zip(sides, known)):
            return name
    across, along = (round(side * 25.4 / 72) for side in sides)
    return f'custom_{across}x{along}mm_{across}x{along}mm'


def choice(keywords, option, attribute, options, ppd):
    """What was chosen by the option of the PPD, as which cupsd hands on the attribute of IPP too; else what the PPD has."""
    if options.get(option) in keywords:
        return keywords[options[option]]
    if options.get(attribute) in keywords.values():
        return options[attribute]
    default = re.search(rf'^\*Default{option}: *(\w+)', ppd, re.M)
    return default and keywords.get(default[1])
