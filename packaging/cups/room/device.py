"""The device URI of the queue: where `ipp-room serve` takes clients, and what the print room asks of jobs.

    room:///run/ipp-room/clients?pin=required
    room://127.0.0.1:6310/
"""
import urllib.parse


class Device:
    """`address` is the path of a socket, or a host and a port."""

    def __init__(self, uri):
        parts = urllib.parse.urlsplit(uri)
        self.address = (parts.hostname, parts.port) if parts.netloc else parts.path
        words = urllib.parse.parse_qs(parts.query, keep_blank_values=True)
        pin = words.pop('pin', [])
        has_place = parts.hostname and parts.port if parts.netloc else parts.path
        if words or pin not in ([], ['required']) or not has_place:
            raise ValueError(uri)
        self.needs_pin = bool(pin)
