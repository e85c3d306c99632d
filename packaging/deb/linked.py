"""What is linked into the program: its own crates, and those of the kit with their licences, as copyright file and as bill of
materials (CycloneDX 1.5).
"""
import datetime
import json
import os
import re
import shutil
import subprocess
import sys
import uuid

# `rt` stands in the kit's folder bin.
KIT = os.path.dirname(os.path.dirname(os.path.realpath(shutil.which('rt') or 'rt')))
# The Rust crate that a page of the kit says a crate comes from, as "`arrayvec` 0.7.8".
ORIGIN = re.compile(r'`?\b(?!section\b)([a-z][\w-]*)`? (\d+\.\d+\.\d+)\b')
FORMAT = 'https://www.debian.org/doc/packaging-manuals/copyright-format/1.0/'
OWN, DUAL = '2026 the authors of Farojuniper', 'MIT OR Apache-2.0'
NO_TEXT = 'the kit ships no licence text for this crate'
PERMISSION = 'Permission is hereby granted, free of charge,'
# Every crate stands on this one, though none names it. What it has of others, as comments of its sources say: where that is, what
# it is, its licence by Debian's name, and its owner.
CORE = 'core'
TAKEN = [('src/char/*', {'type': 'data', 'name': 'Unicode Character Database', 'version': '18.0.0'}, 'Unicode-3.0', 'Unicode, Inc.'),
         ('src/dec2flt/*', {'type': 'library', 'name': 'fast-float2', 'version': '0.2.4', 'purl': 'pkg:cargo/fast-float2@0.2.4'},
          'Expat', 'the authors of fast-float2'),
         ('src/str/two_way.rt', {'type': 'library', 'name': 'memchr', 'version': '2.8.3', 'purl': 'pkg:cargo/memchr@2.8.3'},
          'Expat', '(c) 2015 Andrew Gallant')]
# CycloneDX 1.5 has no id for Unicode's.
IN_BILL = {'Expat': {'id': 'MIT'}, 'Unicode-3.0': {'name': 'Unicode License v3'}}


class Linked:
    """The crates that room_cli stands on, its own and the kit's, with what each needs, and whose those of the kit are."""

    def __init__(self, top):
        self.kit = subprocess.run(['rt', 'version'], check=True, stdout=subprocess.PIPE, text=True).stdout.split()[0]
        self.mit = permission_of(read(f'{top}/LICENSE-MIT'))
        self.needs = {}
        for line in read(f'{top}/crates.txt').splitlines():
            if line[:1].isalpha():
                name, _, needs = line.partition(':')
                self.needs[name.split()[0]] = needs.split()
        self.own, taken = set(self.needs), set()
        self.take('room_cli', taken)
        self.take(CORE, taken)
        self.needs = {name: self.needs[name] for name in sorted(taken)}
        self.owners = {name: self.owners_of(name) for name in self.needs if name not in self.own}

    def take(self, name, taken):
        if name in taken:
            return
        taken.add(name)
        if name not in self.needs:
            below = f'{KIT}/rlibs/{name}.rlib/below'
            self.needs[name] = sorted(os.listdir(below)) if os.path.isdir(below) else []
        for need in self.needs[name]:
            self.take(need, taken)

    def owners_of(self, name):
        """Whose a crate of the kit is, by its text of the MIT licence; nobody's where it has no text."""
        folder = f'{KIT}/rattle/{name}'
        texts = [read(f'{folder}/{file}') for file in sorted(os.listdir(folder)) if file.startswith('LICENSE')]
        for text in texts:
            if permission_of(text).split() == self.mit.split():
                return tuple(re.findall(r'^ *Copyright (.+)', text, re.MULTILINE)) or (f'the authors of {name}',)
        if texts:
            sys.exit(f'packaging/deb/linked.py: {folder} has a licence that is not MIT, of which nothing is told here')
        return ()

    def own_copyright(self):
        return f'{self.own_stanza()}\n{self.own_licences()}'

    def copyright(self):
        """What the licences of the kit's crates ask to be told too, each text once."""
        files = {}
        for name, owners in self.owners.items():
            files.setdefault(owners, []).append(f'kit/{name}/*')
        bare = files.pop(())
        stanzas = [f'{self.own_stanza()}Comment: kit/ stands for the crates of {self.kit} that are linked in.\n',
                   stanza(bare, [f'the authors of {self.kit}'], 'unstated\n The kit ships no licence text for these crates.'),
                   *(stanza(paths, owners, 'Expat') for owners, paths in files.items()),
                   *(stanza([f'kit/{CORE}/{path}'], [owner], licence) for path, _, licence, owner in TAKEN),
                   self.own_licences(),
                   f'License: Unicode-3.0\n{indented(read(f"{KIT}/rattle/unicode/LICENSE-UNICODE"))}\n']
        return '\n'.join(stanzas)

    def own_stanza(self):
        return (f'Format: {FORMAT}\nUpstream-Name: Farojuniper\nSource: the repository Farojuniper\n\n'
                + stanza(['*'], [OWN], 'Expat or Apache-2.0'))

    def own_licences(self):
        return (f'License: Expat\n{indented(self.mit)}\n\nLicense: Apache-2.0\n'
                ' The Apache License, Version 2.0, whose text Debian has as /usr/share/common-licenses/Apache-2.0.\n')

    def bill(self, version, digest, origin, moment):
        """The bill of materials of a program with this sum."""
        components = [self.component(name, version) for name in self.needs]
        bill = {'bomFormat': 'CycloneDX', 'specVersion': '1.5', 'version': 1,
                'serialNumber': f'urn:uuid:{uuid.uuid5(uuid.NAMESPACE_URL, f"ipp-room {version} {origin}")}',
                'metadata': {'timestamp': datetime.datetime.fromtimestamp(moment, datetime.timezone.utc).strftime('%Y-%m-%dT%H:%M:%SZ'),
                             'component': {'type': 'application', 'bom-ref': 'ipp-room', 'name': 'ipp-room', 'version': version,
                                           'description': origin, 'hashes': [{'alg': 'SHA-256', 'content': digest}],
                                           'licenses': [{'expression': DUAL}]}},
                'components': components,
                'dependencies': [{'ref': 'ipp-room', 'dependsOn': ['room_cli', CORE]},
                                 *({'ref': name, 'dependsOn': needs} for name, needs in self.needs.items())]}
        return json.dumps(bill, indent=1, ensure_ascii=False) + '\n'

    def component(self, name, version):
        if name in self.own:
            return {'type': 'library', 'bom-ref': name, 'group': 'farojuniper', 'name': name, 'version': version,
                    'licenses': [{'expression': DUAL}]}
        told = {'type': 'library', 'bom-ref': name, 'group': 'rattle-kit', 'name': name, 'version': self.kit.removeprefix('rattle-kit-')}
        if self.owners[name]:
            told['licenses'] = [{'license': IN_BILL['Expat']}]
            told['pedigree'] = {'ancestors': origins_of(f'{KIT}/rattle/{name}')}
        else:
            told['properties'] = [{'name': 'farojuniper:no-licence', 'value': NO_TEXT}]
        if name == CORE:
            told['pedigree'] = {'ancestors': [{**part, 'licenses': [{'license': IN_BILL[licence]}]} for _, part, licence, _ in TAKEN]}
        return told


def read(path):
    with open(path, encoding='utf-8') as file:
        return file.read()


def permission_of(text):
    """The MIT licence, without the lines that say whose something is; nothing of another text."""
    return text[text.index(PERMISSION):] if PERMISSION in text else ''


def stanza(files, owners, licence):
    owned, licensed = '\n '.join(owners), '\n '.join(files)
    return f'Files: {licensed}\nCopyright: {owned}\nLicense: {licence}\n'


def origins_of(folder):
    """The Rust crates that a page of the kit names, with their versions."""
    return [{'type': 'library', 'name': name, 'version': number, 'purl': f'pkg:cargo/{name}@{number}'}
            for name, number in sorted(set(ORIGIN.findall(read(f'{folder}/README.md'))))]


def indented(text):
    """A text as a field of Debian's control files has it."""
    return '\n'.join(f' {line.rstrip()}' if line.strip() else ' .' for line in text.strip('\n').split('\n'))
