"""Documents to print, for tools/cups-tries and tools/station-tries: PDF, PostScript, text, JPEG, PWG raster (PWG 5102.4) and URF, of so many pages."""
import os
import struct
import subprocess

A3, A4, A5, LETTER = (842, 1191), (595, 842), (420, 595), (612, 792)
# What a page has at 600 dots per inch.
DOTS = {A4: (4960, 7016), LETTER: (5100, 6600), (288, 432): (2400, 3600)}
PHOTO = (288, 432)
# Bits of a dot.
BLACK, GRAY, RGB = 1, 8, 24


def pdf(pages, size=A4, burden=b''):
    """A PDF, with these bytes as an image that no page shows."""
    kids = ' '.join(f'{4 + 2 * page} 0 R' for page in range(pages))
    objects = [b'<< /Type /Catalog /Pages 2 0 R >>', f'<< /Type /Pages /Count {pages} /Kids [{kids}] >>'.encode(),
               stream(burden, '/Type /XObject /Subtype /Image /Width 1 /Height 1 /BitsPerComponent 8 /ColorSpace /DeviceGray')]
    for page in range(pages):
        objects += [f'<< /Type /Page /Parent 2 0 R /MediaBox [0 0 {size[0]} {size[1]}] /Contents {5 + 2 * page} 0 R '
                    '/Resources << /Font << /F << /Type /Font /Subtype /Type1 /BaseFont /Helvetica >> >> /XObject << /X 3 0 R >> >> >>'.encode(),
                    stream(f'BT /F 24 Tf 72 {size[1] - 100} Td (Page {page + 1}) Tj ET'.encode(), '')]
    text, places = bytearray(b'%PDF-1.4\n'), []
    for number, object_text in enumerate(objects, 1):
        places.append(len(text))
        text += b'%d 0 obj\n%b\nendobj\n' % (number, object_text)
    begins = len(text)
    text += b'xref\n0 %d\n0000000000 65535 f \n' % (len(objects) + 1) + b''.join(b'%010d 00000 n \n' % place for place in places)
    return bytes(text) + b'trailer << /Size %d /Root 1 0 R >>\nstartxref\n%d\n%%%%EOF\n' % (len(objects) + 1, begins)


def stream(data, words):
    return f'<< {words} /Length {len(data)} >>\nstream\n'.encode() + data + b'\nendstream'


def postscript(pages):
    shown = ''.join(f'/Helvetica 24 selectfont 72 700 moveto (Page {page + 1}) show showpage\n' for page in range(pages))
    return f'%!PS-Adobe-3.0\n%%Pages: {pages}\n%%EndComments\n{shown}%%EOF\n'.encode()


def text(pages):
    """Pages of 60 lines."""
    return '\f'.join('\n'.join(f'Line {line}' for line in range(40)) for _ in range(pages)).encode() + b'\n'


def jpeg(is_gray=False):
    words = ['pdftoppm', '-jpeg', '-r', '50', '-singlefile'] + ['-gray'] * is_gray
    return subprocess.run(words, input=pdf(1), check=True, stdout=subprocess.PIPE).stdout


def white_page(size, bits):
    """All lines of a page, each as runs of white (at most 128 dots, or bytes of eight, and at most 256 equal lines)."""
    across, along = DOTS[size]
    count, white = ((across + 7) // 8, b'\0') if bits == BLACK else (across, b'\xff' * (bits // 8))
    line = b''.join(bytes([min(128, count - at) - 1]) + white for at in range(0, count, 128))
    return b''.join(bytes([min(256, along - at) - 1]) + line for at in range(0, along, 256))


def pwg(pages, size=A4, bits=GRAY):
    across, along = DOTS[size]
    head = bytearray(1796)
    head[:10] = b'PwgRaster\0'
    for at, numbers in {276: (600, 600), 340: (1,), 352: size, 372: (across, along), 384: (min(bits, 8), bits, (across * bits + 7) // 8),
                        400: ({BLACK: 3, GRAY: 18, RGB: 19}[bits],), 420: (3 if bits == RGB else 1,), 452: (pages, 1, 1)}.items():
        struct.pack_into(f'>{len(numbers)}I', head, at, *numbers)
    return b'RaS2' + (bytes(head) + white_page(size, bits)) * pages


def urf(pages, size=A4, bits=RGB):
    head = struct.pack('>4B7I', bits, 1 if bits == RGB else 0, 1, 4, 0, 0, *DOTS[size], 600, 0, 0)
    return b'UNIRAST\0' + pages.to_bytes(4, 'big') + (head + white_page(size, bits)) * pages


def write(path, data):
    with open(path, 'wb') as file:
        file.write(data)
    os.chmod(path, 0o644)
    return path
