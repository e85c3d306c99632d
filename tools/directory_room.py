"""A directory for tools/directory-tries: Debian's slapd twice with TLS, servers that lie, and the judge of packaging/directory before them.

`be_alone` of front.py has to be called first: all listen in that network.
"""
import base64
import contextlib
import http.cookiejar
import http.server
import json
import os
import re
import shutil
import socket
import ssl
import subprocess
import sys
import threading
import time
import urllib.error
import urllib.parse
import urllib.request

from messages import TOP
from station_room import wait_until, want, write

PACKAGE = f'{TOP}/packaging/directory'
sys.path[:0] = [f'{TOP}/packaging/names', PACKAGE]
import ldapv3

BASE, PASSWORD, SEARCHER = 'dc=uni,dc=example', 'secret', 'look-people-up'
# Who answers at which address of this machine's own network.
HOSTS = {'ldap1.example': '127.0.0.11', 'ldap2.example': '127.0.0.12', 'liar.example': '127.0.0.13', 'printroom.example': '127.0.0.14', 'auth.uni.example': '127.0.0.14'}
SLAPD = """
include /etc/ldap/schema/core.schema
include /etc/ldap/schema/cosine.schema
include /etc/ldap/schema/nis.schema
include /etc/ldap/schema/inetorgperson.schema
attributetype ( 1.2.840.113556.1.4.8 NAME 'userAccountControl' EQUALITY integerMatch SYNTAX 1.3.6.1.4.1.1466.115.121.1.27 SINGLE-VALUE )
attributetype ( 1.2.840.113556.1.4.159 NAME 'accountExpires' EQUALITY integerMatch SYNTAX 1.3.6.1.4.1.1466.115.121.1.27 SINGLE-VALUE )
attributetype ( 2.16.840.1.113730.3.1.610 NAME 'nsAccountLock' EQUALITY caseIgnoreMatch SYNTAX 1.3.6.1.4.1.1466.115.121.1.15 )
attributetype ( 2.16.840.1.113719.1.1.4.1.45 NAME 'loginDisabled' EQUALITY booleanMatch SYNTAX 1.3.6.1.4.1.1466.115.121.1.7 SINGLE-VALUE )
modulepath /usr/lib/ldap
moduleload back_mdb
moduleload ppolicy
pidfile {folder}/pid
loglevel none
sizelimit 500
TLSCACertificateFile {authority}
TLSCertificateFile {certificate}
TLSCertificateKeyFile {certificate}
database mdb
suffix {base}
rootdn cn=admin,{base}
rootpw admin
directory {folder}/db
dbnosync
maxsize 268435456
index objectClass,uid eq
overlay ppolicy
ppolicy_default cn=policy,{base}
ppolicy_use_lockout
access to attrs=userPassword by anonymous auth by * none
access to * by dn.exact="cn=print,{base}" read by * none
"""
FRAME = f"""dn: {BASE}
objectClass: dcObject
objectClass: organization
dc: uni
o: uni

dn: ou=people,{BASE}
objectClass: organizationalUnit
ou: people

dn: ou=machines,{BASE}
objectClass: organizationalUnit
ou: machines

dn: ou=groups,{BASE}
objectClass: organizationalUnit
ou: groups

dn: cn=print,{BASE}
objectClass: organizationalRole
objectClass: simpleSecurityObject
cn: print
userPassword: {SEARCHER}

dn: cn=policy,{BASE}
objectClass: organizationalRole
objectClass: pwdPolicy
cn: policy
pwdAttribute: userPassword
pwdLockout: TRUE
pwdMaxFailure: 50
pwdLockoutDuration: 0

"""
# What a room's file says, before more lines.
CONFIGURATION = """server ldap1.example
server ldap2.example
authority {folder}/authority.pem
searcher cn=print,{base}
password {folder}/searcher
people ou=people,{base}
print cn=students,ou=groups,{base}
print cn=staff,ou=groups,{base}
operate cn=operators,ou=groups,{base}
"""


def name_hosts(folder):
    """Has the names of the hosts lead to this network, for who looks them up from now on."""
    write(f'{folder}/hosts', '127.0.0.1 localhost\n' + ''.join(f'{address} {name}\n' for name, address in HOSTS.items()))
    subprocess.run(['mount', '--bind', f'{folder}/hosts', '/etc/hosts'], check=True)


def openssl(*words):
    subprocess.run(['openssl', *words], check=True, stdin=subprocess.DEVNULL, stdout=subprocess.DEVNULL, stderr=subprocess.DEVNULL)


def make_authority(folder, name='authority'):
    openssl('req', '-x509', '-newkey', 'ec', '-pkeyopt', 'ec_paramgen_curve:prime256v1', '-nodes', '-keyout', f'{folder}/{name}.key', '-out', f'{folder}/{name}.pem', '-subj', f'/CN={name}',
            '-addext', 'basicConstraints=critical,CA:TRUE', '-addext', 'keyUsage=critical,keyCertSign')


def make_certificate(folder, host, by='authority', days='30', file=None):
    """A file with the key and the certificate of a host."""
    file = file or f'{folder}/{host}.pem'
    openssl('req', '-newkey', 'ec', '-pkeyopt', 'ec_paramgen_curve:prime256v1', '-nodes', '-keyout', f'{file}.key', '-out', f'{file}.csr', '-subj', f'/CN={host}')
    write(f'{file}.extra', f'subjectAltName=DNS:{host}\nbasicConstraints=CA:FALSE\n')
    openssl('x509', '-req', '-in', f'{file}.csr', '-out', file, '-days', days, '-CA', f'{folder}/{by}.pem', '-CAkey', f'{folder}/{by}.key', '-extfile', f'{file}.extra')
    with open(f'{file}.key') as key, open(file, 'a') as certificate:
        certificate.write(key.read())
    return file


def entry(dn, *lines):
    """An entry of LDIF. Each line is `attribute value`; what LDIF could misread goes in base64, and values of an attribute together."""
    def told(attribute, value):
        return f'{attribute}:: {base64.b64encode(value.encode()).decode()}\n'
    first = [line.split(' ')[0] for line in lines]
    return told('dn', f'{dn},{BASE}') + ''.join(told(*line.split(' ', 1)) for line in sorted(lines, key=lambda line: first.index(line.split(' ')[0]))) + '\n'


def person(name, *lines, rdn=None, password=PASSWORD):
    """A person who signs in by the name, with further lines."""
    place = rdn or f'uid={name}'
    own = [] if rdn is None or any(line.startswith('cn ') for line in lines) else [f'cn {rdn[3:]}']
    return entry(f'{place},ou=people', 'objectClass inetOrgPerson', 'objectClass shadowAccount', 'objectClass extensibleObject', f'uid {name}',
                 *(own if rdn else [f'cn {name}']), f'sn {name}', *([f'userPassword {password}'] if password is not None else []), *lines)


def group(name, *members):
    return entry(f'cn={name},ou=groups', 'objectClass groupOfNames', f'cn {name}', *(f'member {member}' for member in members))


def dn_of(name, rdn=None):
    return f'{rdn or "uid=" + name},ou=people,{BASE}'


class Slapd:
    """A server of a directory, up to the end of the block."""

    def __init__(self, folder, host, ldif):
        self.host, self.address = host, HOSTS[host]
        self.folder = f'{folder}/{host}'
        os.makedirs(f'{self.folder}/db')
        certificate = make_certificate(folder, host)
        write(f'{self.folder}/slapd.conf', SLAPD.format(folder=self.folder, base=BASE, authority=f'{folder}/authority.pem', certificate=certificate))
        write(f'{self.folder}/ldif', FRAME + ldif)
        added = subprocess.run(['/usr/sbin/slapadd', '-q', '-f', f'{self.folder}/slapd.conf', '-l', f'{self.folder}/ldif'], stderr=subprocess.PIPE, text=True)
        want(added.returncode == 0, added.stderr[-1000:])

    def __enter__(self):
        self.start()
        return self

    def __exit__(self, *_):
        self.kill()

    def start(self):
        words = ['/usr/sbin/slapd', '-d', '0', '-f', f'{self.folder}/slapd.conf', '-h', f'ldaps://{self.address}:636 ldapi://{self.socket()}']
        self.process = subprocess.Popen(words, stdin=subprocess.DEVNULL, stdout=subprocess.DEVNULL, stderr=subprocess.DEVNULL)
        wait_until(lambda: reaches(self.address, 636), 120, 'slapd')

    def socket(self):
        return f'{self.folder}/ldapi'.replace('/', '%2F')

    def kill(self):
        self.process.kill()
        self.process.wait()

    def signal(self, which):
        self.process.send_signal(which)

    def change(self, ldif):
        """Changes entries, as the directory's own operator."""
        changed = subprocess.run(['ldapmodify', '-x', '-H', f'ldapi://{self.socket()}', '-D', f'cn=admin,{BASE}', '-w', 'admin', '-e', 'relax'],
                                 input=ldif, stdout=subprocess.DEVNULL, stderr=subprocess.PIPE, text=True)
        want(changed.returncode == 0, changed.stderr)

    def put(self, name, attribute, *values):
        """Gives a person's attribute these values, and no others."""
        lines = [f'dn: {dn_of(name)}', 'changetype: modify', f'replace: {attribute}', *(f'{attribute}: {value}' for value in values), '']
        self.change('\n'.join(lines))

    def read(self, name, *attributes):
        words = ['ldapsearch', '-xLLL', '-o', 'ldif-wrap=no', '-H', f'ldapi://{self.socket()}', '-D', f'cn=admin,{BASE}', '-w', 'admin', '-b', dn_of(name)]
        return subprocess.run([*words, *attributes], stdout=subprocess.PIPE, stderr=subprocess.DEVNULL, text=True).stdout


def reaches(address, port):
    with socket.socket() as stream:
        stream.settimeout(1)
        return stream.connect_ex((address, port)) == 0


class Judge:
    """ipp-room-judge as the package has it, in a folder, up to the end of the block. `texts` has what stands otherwise in its files."""

    def __init__(self, folder, said=CONFIGURATION, table='rule same\n', name='judge', texts=()):
        self.folder, self.place = f'{folder}/{name}', f'{folder}/{name}.ask'
        os.mkdir(self.folder)
        for file in (*(f'{PACKAGE}/{part}' for part in ('ipp-room-judge', 'ask-judge', 'directory.py', 'ldapv3.py', 'remembering.py')),
                     *(f'{TOP}/packaging/names/{part}' for part in ('names.py', 'guests.py'))):
            shutil.copy(file, self.folder)
        for file, old, new in texts:
            with open(f'{self.folder}/{file}', encoding='utf-8') as source:
                text = source.read()
            want(old in text, f'{old} is not in {file}')
            write(f'{self.folder}/{file}', text.replace(old, new))
        write(f'{folder}/searcher', SEARCHER + '\n')
        self.said, self.names, self.guests = (f'{self.folder}/{part}' for part in ('directory', 'names', 'guests'))
        write(self.said, said.format(folder=folder, base=BASE))
        self.put_table(table)

    def put_table(self, table):
        write(f'{self.names}.new', table)
        os.rename(f'{self.names}.new', self.names)

    def words(self, *more):
        return [f'{self.folder}/ipp-room-judge', '--directory', self.said, '--names', self.names, '--guests', self.guests, '--socket', self.place, *more]

    def __enter__(self):
        self.start()
        return self

    def __exit__(self, *_):
        self.kill()

    def start(self):
        with open(f'{self.folder}/log', 'ab') as log:
            self.process = subprocess.Popen(self.words('serve'), stdin=subprocess.DEVNULL, stdout=log, stderr=log)
        wait_until(self.answers, 120, 'the judge')

    def answers(self):
        with socket.socket(socket.AF_UNIX) as stream:
            return stream.connect_ex(self.place) == 0

    def kill(self):
        self.process.kill()
        self.process.wait()

    def forget(self):
        """Begins anew, with nothing that it remembers."""
        self.kill()
        self.start()

    def asks(self, name, password=PASSWORD, word='ask'):
        """What it answers."""
        return self.says(b'%b %b %b\n' % (word.encode(), base64.b64encode(as_bytes(name)), base64.b64encode(as_bytes(password))))

    def says(self, data, seconds=30):
        with socket.socket(socket.AF_UNIX) as stream:
            stream.settimeout(seconds)
            stream.connect(self.place)
            stream.sendall(data)
            with contextlib.suppress(ConnectionResetError), stream.makefile('rb') as answers:
                return answers.read().decode().strip()
        return ''

    def log(self):
        with open(f'{self.folder}/log', encoding='utf-8') as file:
            return file.read()


def as_bytes(text):
    return text if isinstance(text, bytes) else text.encode()


class Liar:
    """A server of LDAP at liar.example that answers as a list of functions says, up to the end of the block.

    Each function takes the number of a message and its operation's content, and tells the bytes that go out. A connection of which nothing is
    left to say ends. `asked` counts binds that had a password.
    """

    def __init__(self, folder, answers, certificate=None, tls=True):
        self.answers, self.tls, self.asked, self.streams = answers, tls, 0, []
        self.certificate = certificate or make_certificate(folder, 'liar.example')

    def __enter__(self):
        self.door = socket.create_server((HOSTS['liar.example'], 636), reuse_port=True)
        threading.Thread(target=self.run, daemon=True).start()
        return self

    def __exit__(self, *_):
        # A thread that waits for the next one would keep the port.
        self.door.shutdown(socket.SHUT_RDWR)
        self.door.close()
        for stream in self.streams:
            stream.close()

    def run(self):
        with contextlib.suppress(OSError):
            while True:
                threading.Thread(target=self.serve, args=[self.door.accept()[0]], daemon=True).start()

    def serve(self, stream):
        self.streams.append(stream)
        with contextlib.suppress(OSError, ValueError, IndexError):
            if self.tls:
                trust = ssl.SSLContext(ssl.PROTOCOL_TLS_SERVER)
                trust.load_cert_chain(self.certificate)
                stream = trust.wrap_socket(stream, server_side=True)
                self.streams.append(stream)
            self.talk(stream)
        stream.close()

    def talk(self, stream):
        for answer in self.answers:
            data = b''
            while True:
                with contextlib.suppress(IndexError):
                    if len(data) >= ldapv3.head(data, 0)[2]:
                        break
                more = stream.recv(1 << 16)
                if not more:
                    return
                data += more
            message = ldapv3.Reader(ldapv3.Reader(data).content(ldapv3.SEQUENCE))
            number = message.number(ldapv3.INTEGER)
            self.asked += bool(message.data[message.at] == ldapv3.BIND and b'\x80' in message.data)
            told = answer(number, stream)
            if told:
                stream.sendall(told)


def message(number, operation):
    return ldapv3.item(ldapv3.SEQUENCE, ldapv3.number(ldapv3.INTEGER, number), operation)


def result(tag, code, *more):
    return ldapv3.item(tag, ldapv3.number(ldapv3.ENUMERATED, code), ldapv3.item(ldapv3.OCTETS, b''), ldapv3.item(ldapv3.OCTETS, b'said'), *more)


def told(tag, code, *more):
    """An answer of one message."""
    return lambda number, _: message(number, result(tag, code, *more))


def entries(*found, code=0, before=b''):
    """An answer to a search: DNs with their values of uid."""
    def answer(number, _):
        texts = []
        for dn, *values in found:
            listed = ldapv3.item(ldapv3.SET, *(ldapv3.item(ldapv3.OCTETS, as_bytes(value)) for value in values))
            attributes = ldapv3.item(ldapv3.SEQUENCE, ldapv3.item(ldapv3.OCTETS, b'UID'), listed)
            texts.append(message(number, ldapv3.item(ldapv3.ENTRY, ldapv3.item(ldapv3.OCTETS, as_bytes(dn)), ldapv3.item(ldapv3.SEQUENCE, attributes))))
        return before + b''.join(texts) + message(number, result(ldapv3.DONE, code))
    return answer


KDC = """[kdcdefaults]
  kdc_listen = 127.0.0.14:{port}
  kdc_tcp_listen = 127.0.0.14:{port}
[realms]
  UNI.EXAMPLE = {{
    database_name = {folder}/principal
    key_stash_file = {folder}/stash
    max_life = 10h
  }}
"""
KRB5 = """[libdefaults]
  default_realm = UNI.EXAMPLE
  dns_lookup_kdc = false
  dns_lookup_realm = false
  dns_canonicalize_hostname = false
  rdns = false
[realms]
  UNI.EXAMPLE = {{
    kdc = 127.0.0.14:{port}
  }}
"""


class Kdc:
    """A realm of Kerberos, UNI.EXAMPLE, up to the end of the block. `file` is what machines have in /etc/krb5.conf."""

    def __init__(self, folder, name='kdc', port=88):
        self.folder, self.file, self.process = f'{folder}/{name}', f'{folder}/{name}/krb5.conf', None
        os.mkdir(self.folder)
        write(f'{self.folder}/kdc.conf', KDC.format(folder=self.folder, port=port))
        write(self.file, KRB5.format(port=port))
        self.surroundings = {**os.environ, 'KRB5_CONFIG': self.file, 'KRB5_KDC_PROFILE': f'{self.folder}/kdc.conf'}
        self.run('/usr/sbin/kdb5_util', 'create', '-s', '-P', 'master', '-r', 'UNI.EXAMPLE')

    def run(self, *words):
        ended = subprocess.run(words, env=self.surroundings, stdin=subprocess.DEVNULL, stdout=subprocess.PIPE, stderr=subprocess.STDOUT, text=True)
        want(ended.returncode == 0, (words, ended.stdout))

    def admin(self, *lines):
        for line in lines:
            self.run('/usr/sbin/kadmin.local', '-r', 'UNI.EXAMPLE', '-q', line)

    def __enter__(self):
        self.start()
        return self

    def __exit__(self, *_):
        self.kill()

    def start(self):
        self.process = subprocess.Popen(['/usr/sbin/krb5kdc', '-n', '-r', 'UNI.EXAMPLE'], env=self.surroundings, stdin=subprocess.DEVNULL, stdout=subprocess.DEVNULL,
                                        stderr=subprocess.DEVNULL)
        wait_until(lambda: self.process.poll() is not None or reaches('127.0.0.14', 88), 60, 'the KDC')

    def kill(self):
        self.process.kill()
        self.process.wait()


class Provider:
    """The least provider of OpenID Connect, at http://127.0.0.14:9000, up to the end of the block: it signs in whom `who` names.

    `claims` are put among those of the token, `lie` says what is wrong with it: `signature`, `audience`, `nonce`, `old`.
    """
    ISSUER = 'http://127.0.0.14:9000'

    def __init__(self, folder):
        self.key, self.who, self.claims, self.lie, self.codes = f'{folder}/provider.key', 'alice', {}, '', {}
        openssl('genrsa', '-out', self.key, '2048')
        openssl('genrsa', '-out', f'{self.key}.other', '2048')
        told = subprocess.run(['openssl', 'rsa', '-in', self.key, '-noout', '-modulus'], check=True, stdout=subprocess.PIPE, stderr=subprocess.DEVNULL, text=True).stdout
        self.modulus = int(told.split('=')[1], 16).to_bytes(256, 'big')

    def __enter__(self):
        provider = self

        class Answers(http.server.BaseHTTPRequestHandler):
            def log_message(self, *_):
                pass

            def do_GET(self):
                provider.get(self)

            def do_POST(self):
                provider.post(self)
        self.server = http.server.ThreadingHTTPServer(('127.0.0.14', 9000), Answers)
        threading.Thread(target=self.server.serve_forever, daemon=True).start()
        return self

    def __exit__(self, *_):
        self.server.shutdown()
        self.server.server_close()

    def get(self, asked):
        place = urllib.parse.urlsplit(asked.path)
        words = dict(urllib.parse.parse_qsl(place.query))
        if place.path == '/auth':
            code = f'code-{len(self.codes)}'
            self.codes[code] = words.get('nonce')
            self.say(asked, {}, 302, words['redirect_uri'] + '?' + urllib.parse.urlencode({'code': code, 'state': words['state']}))
        elif place.path == '/keys':
            self.say(asked, {'keys': [{'kty': 'RSA', 'kid': '1', 'use': 'sig', 'alg': 'RS256', 'n': url64(self.modulus), 'e': 'AQAB'}]})
        else:
            self.say(asked, {'issuer': self.ISSUER, 'authorization_endpoint': f'{self.ISSUER}/auth', 'token_endpoint': f'{self.ISSUER}/token', 'jwks_uri': f'{self.ISSUER}/keys',
                             'response_types_supported': ['code'], 'subject_types_supported': ['public'], 'id_token_signing_alg_values_supported': ['RS256'],
                             'token_endpoint_auth_methods_supported': ['client_secret_basic']})

    def post(self, asked):
        words = dict(urllib.parse.parse_qsl(asked.rfile.read(int(asked.headers['Content-Length'])).decode()))
        now = int(time.time())
        claims = {'iss': self.ISSUER, 'sub': f'id-{self.who}', 'aud': 'printroom', 'exp': now + 600, 'iat': now, 'nonce': self.codes.pop(words['code']),
                  'preferred_username': self.who, **self.claims}
        claims.update({'audience': {'aud': 'another'}, 'nonce': {'nonce': 'another'}, 'old': {'exp': now - 9000, 'iat': now - 9600}}.get(self.lie, {}))
        head = {'alg': 'RS256', 'kid': '1'}
        text = f'{url64(json.dumps(head).encode())}.{url64(json.dumps(claims).encode())}'
        key = f'{self.key}.other' if self.lie == 'signature' else self.key
        signed = subprocess.run(['openssl', 'dgst', '-sha256', '-sign', key], input=text.encode(), check=True, stdout=subprocess.PIPE).stdout
        token = f'{text}.{url64(signed)}'
        self.say(asked, {'access_token': 'a', 'token_type': 'Bearer', 'expires_in': 600, 'id_token': token})

    @staticmethod
    def say(asked, told, status=200, place=''):
        data = json.dumps(told).encode()
        asked.send_response(status)
        for field, value in (('Location', place), ('Content-Type', 'application/json'), ('Content-Length', str(len(data)))):
            if value:
                asked.send_header(field, value)
        asked.end_headers()
        asked.wfile.write(data)


class Lemonldap:
    """Debian's lemonldap-ng as the provider, at http://auth.uni.example:9000, which signs people in by the directory."""
    ISSUER = 'http://auth.uni.example:9000'
    CONFIGURED, INI = '/var/lib/lemonldap-ng/conf/lmConf-1.json', '/etc/lemonldap-ng/lemonldap-ng.ini'

    def __init__(self, folder, authority, redirect):
        self.folder = f'{folder}/lemonldap'
        for name in ('', '/conf', '/cache', '/sessions', '/sessions/lock', '/psessions', '/psessions/lock', '/notifications'):
            os.mkdir(self.folder + name)
        openssl('genrsa', '-out', f'{self.folder}/key', '2048')
        openssl('rsa', '-in', f'{self.folder}/key', '-pubout', '-out', f'{self.folder}/public')
        self.put_configuration(authority, redirect)
        with open(self.INI, encoding='utf-8') as file:
            write(f'{self.folder}/lemonldap-ng.ini', file.read().replace('/var/lib/lemonldap-ng', self.folder))

    def put_configuration(self, authority, redirect):
        def text_of(path):
            with open(path, encoding='utf-8') as file:
                return file.read()
        said = json.loads(text_of(self.CONFIGURED).replace('/var/lib/lemonldap-ng', self.folder))
        said.update({
            'portal': f'{self.ISSUER}/', 'domain': 'uni.example', 'authentication': 'LDAP', 'userDB': 'LDAP', 'passwordDB': 'Null', 'registerDB': 'Null',
            'ldapServer': 'ldaps://ldap1.example:636', 'ldapBase': f'ou=people,{BASE}', 'managerDn': f'cn=print,{BASE}', 'managerPassword': SEARCHER,
            'AuthLDAPFilter': '(uid=$user)', 'ldapExportedVars': {'uid': 'uid'}, 'ldapVerify': 'require', 'ldapCAFile': authority, 'requireToken': 0, 'notification': 0,
            'issuerDBOpenIDConnectActivation': 1, 'issuerDBOpenIDConnectRule': 1, 'issuerDBOpenIDConnectPath': '^/oauth2/', 'oidcServiceAllowAuthorizationCodeFlow': 1,
            'oidcServicePrivateKeySig': text_of(f'{self.folder}/key'), 'oidcServicePublicKeySig': text_of(f'{self.folder}/public'), 'oidcServiceKeyIdSig': 'room',
            'oidcRPMetaDataExportedVars': {'room': {'preferred_username': 'uid'}}, 'oidcRPMetaDataOptions': {'room': {
                'oidcRPMetaDataOptionsClientID': 'printroom', 'oidcRPMetaDataOptionsClientSecret': 'of-the-client', 'oidcRPMetaDataOptionsBypassConsent': 1,
                'oidcRPMetaDataOptionsIDTokenSignAlg': 'RS256', 'oidcRPMetaDataOptionsRedirectUris': redirect, 'oidcRPMetaDataOptionsIDTokenForceClaims': 1}}})
        write(f'{self.folder}/conf/lmConf-1.json', json.dumps(said))

    def __enter__(self):
        words = ['/usr/bin/plackup', '-s', 'HTTP::Server::PSGI', '-o', HOSTS['printroom.example'], '-p', '9000', '/usr/share/lemonldap-ng/portal/htdocs/index.psgi']
        with open(f'{self.folder}/log', 'w', encoding='utf-8') as log:
            self.process = subprocess.Popen(words, stdin=subprocess.DEVNULL, stdout=log, stderr=log, env={**os.environ, 'LLNG_DEFAULTCONFFILE': f'{self.folder}/lemonldap-ng.ini'})
        wait_until(lambda: self.process.poll() is not None or reaches(HOSTS['printroom.example'], 9000), 120, 'lemonldap-ng')
        want(self.process.poll() is None, self.log())
        return self

    def __exit__(self, *_):
        self.process.kill()
        self.process.wait()

    def log(self):
        with open(f'{self.folder}/log', encoding='utf-8') as file:
            return file.read()[:1500]


def url64(data):
    return base64.urlsafe_b64encode(data).rstrip(b'=').decode()


APACHE = """ServerRoot {folder}
PidFile {folder}/pid
ServerName printroom.example
Listen {port}
User www-data
Group www-data
ErrorLog {folder}/error
Define APACHE_LOG_DIR {folder}
""" + ''.join(f'LoadModule {name}_module /usr/lib/apache2/modules/mod_{name}.so\n' for name in (
    'mpm_event', 'alias', 'authn_core', 'authz_core', 'authz_user', 'proxy', 'proxy_http', 'headers', 'socache_shmcb', 'ssl', 'auth_openidc'))


class Apache:
    """Debian's apache2 by packaging/directory/openid.conf, up to the end of the block, before a socket of haproxy. `port` is that of pages."""

    def __init__(self, folder, certificate, place, port, issuer=Provider.ISSUER):
        self.folder, self.port = f'{folder}/apache', port
        os.mkdir(self.folder)
        os.chmod(self.folder, 0o755)
        write(f'{self.folder}/secret', 'OIDCClientSecret of-the-client\nOIDCCryptoPassphrase of-the-cookies\n')
        with open(f'{PACKAGE}/openid.conf', encoding='utf-8') as file:
            text = file.read()
        subprocess.run([f'{TOP}/packaging/refusals', f'{self.folder}/refusals'], check=True)
        for old, new in (('https://login.example.org/', f'{issuer}/'), ('/usr/share/ipp-room/refusals', f'{self.folder}/refusals'), ('/etc/apache2/openid.secret', f'{self.folder}/secret'), ('*:443', f'*:{port}'),
                         ('https://printroom.example/~openid', f'https://printroom.example:{port}/~openid'), ('/etc/apache2/room.pem', certificate),
                         ('/run/ipp-room-sign-on/pages', place)):
            want(old in text, f'{old} is not in it')
            text = text.replace(old, new)
        write(f'{self.folder}/apache.conf', APACHE.format(folder=self.folder, port=port) + text)

    def __enter__(self):
        with open(f'{self.folder}/out', 'w', encoding='utf-8') as out:
            self.process = subprocess.Popen(['/usr/sbin/apache2', '-f', f'{self.folder}/apache.conf', '-DFOREGROUND'], stdout=out, stderr=out)
        wait_until(lambda: self.process.poll() is not None or reaches(HOSTS['printroom.example'], self.port), 120, 'apache2')
        return self

    def __exit__(self, *_):
        self.process.terminate()
        self.process.wait()

    def log(self):
        text = ''
        for name in ('out', 'error'):
            with contextlib.suppress(FileNotFoundError), open(f'{self.folder}/{name}', encoding='utf-8') as file:
                text += file.read()
        return text


class Browser:
    """Somebody at a browser, who keeps cookies and follows where he is sent."""

    def __init__(self, port):
        self.base = f'https://printroom.example:{port}'
        trust = ssl.create_default_context()
        trust.check_hostname, trust.verify_mode = False, ssl.CERT_NONE
        self.cookies = http.cookiejar.CookieJar()
        self.opener = urllib.request.build_opener(urllib.request.HTTPSHandler(context=trust), urllib.request.HTTPCookieProcessor(self.cookies))

    def asks(self, path, data=None, **fields):
        """The status at the end of the way, where that is, and what came."""
        return self.asks_at(self.base + path, data, fields)

    def asks_at(self, place, data=None, fields=()):
        # Whoever does not accept pages, as a script, is told 401 in the place of being sent to sign in.
        asked = urllib.request.Request(place, data, {'Accept': 'text/html', **{name.replace('_', '-'): value for name, value in dict(fields).items()}})
        try:
            with self.opener.open(asked, timeout=60) as answer:
                return answer.status, answer.url, answer.read().decode(errors='replace')
        except urllib.error.HTTPError as error:
            return error.code, error.url, error.read().decode(errors='replace')
        except urllib.error.URLError as error:
            raise OSError(f'{place}: {error}') from error


def is_there(path):
    return os.path.exists(path)


def seconds_of(call):
    """What a call answers, and how long it took."""
    begun = time.monotonic()
    answer = call()
    return answer, time.monotonic() - begun


def words_of(log):
    return re.sub(r'\s+', ' ', log)
