"""Reads the resources of images independently of petool, by docs/FORMAT.md, and makes their parts of pages; for pages.py.

An image is that of pages_reader.py, and its tables are those of pages_tables.py. The names of types come from winuser.h, and the tags of
languages from "Windows Language Code Identifier (LCID) Reference".
"""

import struct

from pages_reader import uint

RESOURCE = 2
TYPES = {number: word for number, word in enumerate(
    "- cursor bitmap icon menu dialog string fontdir font accelerator rcdata messagetable group_cursor - group_icon - version dlginclude - "
    "plugplay vxd anicursor aniicon html manifest".split()) if word != "-"}
#: The tags of LANGIDs, which are six bits of a sublanguage before ten of a primary language.
LANGUAGES = """
    0401 ar-SA 0801 ar-IQ 0c01 ar-EG 1001 ar-LY 1401 ar-DZ 1801 ar-MA 1c01 ar-TN 2001 ar-OM 2401 ar-YE 2801 ar-SY 2c01 ar-JO 3001 ar-LB
    3401 ar-KW 3801 ar-AE 3c01 ar-BH 4001 ar-QA 0402 bg-BG 0403 ca-ES 0803 ca-ES-valencia 0404 zh-TW 0804 zh-CN 0c04 zh-HK 1004 zh-SG
    1404 zh-MO 0405 cs-CZ 0406 da-DK 0407 de-DE 0807 de-CH 0c07 de-AT 1007 de-LU 1407 de-LI 0408 el-GR 0409 en-US 0809 en-GB 0c09 en-AU
    1009 en-CA 1409 en-NZ 1809 en-IE 1c09 en-ZA 2009 en-JM 2409 en-029 2809 en-BZ 2c09 en-TT 3009 en-ZW 3409 en-PH 4009 en-IN 4409 en-MY
    4809 en-SG 040a es-ES_tradnl 080a es-MX 0c0a es-ES 100a es-GT 140a es-CR 180a es-PA 1c0a es-DO 200a es-VE 240a es-CO 280a es-PE
    2c0a es-AR 300a es-EC 340a es-CL 380a es-UY 3c0a es-PY 400a es-BO 440a es-SV 480a es-HN 4c0a es-NI 500a es-PR 540a es-US 040b fi-FI
    040c fr-FR 080c fr-BE 0c0c fr-CA 100c fr-CH 140c fr-LU 180c fr-MC 040d he-IL 040e hu-HU 040f is-IS 0410 it-IT 0810 it-CH 0411 ja-JP
    0412 ko-KR 0413 nl-NL 0813 nl-BE 0414 nb-NO 0814 nn-NO 0415 pl-PL 0416 pt-BR 0816 pt-PT 0417 rm-CH 0418 ro-RO 0818 ro-MD 0419 ru-RU
    0819 ru-MD 041a hr-HR 081a sr-Latn-CS 0c1a sr-Cyrl-CS 101a hr-BA 141a bs-Latn-BA 181a sr-Latn-BA 1c1a sr-Cyrl-BA 201a bs-Cyrl-BA
    241a sr-Latn-RS 281a sr-Cyrl-RS 2c1a sr-Latn-ME 301a sr-Cyrl-ME 041b sk-SK 041c sq-AL 041d sv-SE 081d sv-FI 041e th-TH 041f tr-TR
    0420 ur-PK 0820 ur-IN 0421 id-ID 0422 uk-UA 0423 be-BY 0424 sl-SI 0425 et-EE 0426 lv-LV 0427 lt-LT 0428 tg-Cyrl-TJ 0429 fa-IR
    042a vi-VN 042b hy-AM 042c az-Latn-AZ 082c az-Cyrl-AZ 042d eu-ES 042e hsb-DE 082e dsb-DE 042f mk-MK 0432 tn-ZA 0832 tn-BW 0434 xh-ZA
    0435 zu-ZA 0436 af-ZA 0437 ka-GE 0438 fo-FO 0439 hi-IN 043a mt-MT 043b se-NO 083b se-SE 0c3b se-FI 103b smj-NO 143b smj-SE
    183b sma-NO 1c3b sma-SE 203b sms-FI 243b smn-FI 083c ga-IE 043e ms-MY 083e ms-BN 043f kk-KZ 0440 ky-KG 0441 sw-KE 0442 tk-TM
    0443 uz-Latn-UZ 0843 uz-Cyrl-UZ 0444 tt-RU 0445 bn-IN 0845 bn-BD 0446 pa-IN 0846 pa-Arab-PK 0447 gu-IN 0448 or-IN 0449 ta-IN
    0849 ta-LK 044a te-IN 044b kn-IN 044c ml-IN 044d as-IN 044e mr-IN 044f sa-IN 0450 mn-MN 0850 mn-Mong-CN 0451 bo-CN 0452 cy-GB
    0453 km-KH 0454 lo-LA 0456 gl-ES 0457 kok-IN 0859 sd-Arab-PK 045a syr-SY 045b si-LK 045c chr-Cher-US 045d iu-Cans-CA 085d iu-Latn-CA
    045e am-ET 085f tzm-Latn-DZ 0461 ne-NP 0861 ne-IN 0462 fy-NL 0463 ps-AF 0464 fil-PH 0465 dv-MV 0867 ff-Latn-SN 0468 ha-Latn-NG
    046a yo-NG 046b quz-BO 086b quz-EC 0c6b quz-PE 046c nso-ZA 046d ba-RU 046e lb-LU 046f kl-GL 0470 ig-NG 0473 ti-ET 0873 ti-ER
    0475 haw-US 0478 ii-CN 047a arn-CL 047c moh-CA 047e br-FR 0480 ug-CN 0481 mi-NZ 0482 oc-FR 0483 co-FR 0484 gsw-FR 0485 sah-RU
    0486 quc-Latn-GT 0487 rw-RW 0488 wo-SN 048c prs-AF 0492 ku-Arab-IQ
""".split()
TAGS = {int(number, 16): tag for number, tag in zip(LANGUAGES[::2], LANGUAGES[1::2])}
TAGS |= {0: "neutral", 0x7F: "invariant", 0x400: "user default", 0x800: "system default"}
TEXT = 1 << 31
#: How many UTF-16 units of two texts are compared.
COMPARED = 64


class Leaf:
    """A data entry: the names that lead to it, and its data."""

    def __init__(self, path, rva, size, code_page):
        self.path, self.rva, self.size, self.code_page = path, rva, size, code_page


class Resources:
    """The leaves of the resource tree of an image, what is found in it and in the version information, and the data of these."""

    def __init__(self, image, held_from):
        self.image, self.held_from = image, held_from
        self.start = image.directory(RESOURCE)[0]
        self.held = held_from(self.start) if self.start else b""
        self.leaves, self.findings, self.before = [], [], []
        if self.start and len(self.held) < 16:
            self.find(181, 0)
        elif self.start:
            self.read_directory(0, ())
        self.version = self.only(16, lambda names: names[:1])
        self.manifest = self.only(24, lambda names: [[it for it in names if it[0] == id] for id in (1, 2)] and
                                  ([it for it in names if it[0] == 1] or [it for it in names if it[0] == 2] or names)[:1])
        leaf, data = self.version or (None, None)
        self.tables, self.fixed = [], None
        if data is not None:
            self.read_version(leaf.rva, data)

    def find(self, number, offset):
        self.findings.append((number, self.start + offset))

    # ---- the tree

    def entries(self, offset):
        """The entries of a directory that are whole, and how many it says to have."""
        count = uint(self.held, offset + 12, 2) + uint(self.held, offset + 14, 2)
        whole = min(count, (len(self.held) - offset - 16) // 8)
        return [struct.unpack_from("<II", self.held, offset + 16 + 8 * k) for k in range(whole)], count

    def read_directory(self, offset, path):
        if len(path) == 3:
            self.find(187, offset)
            return
        if offset + 16 > len(self.held):
            self.find(182, offset)
            return
        entries, count = self.entries(offset)
        if len(entries) < count:
            self.find(182, offset)
        end = offset + 16 + 8 * len(entries)
        if any(offset < other_end and other < end for other, other_end in self.before):
            self.find(185, offset)
            return
        self.before.append((offset, end))
        if any(self.is_unordered(one, other) for (one, _), (other, _) in zip(entries, entries[1:])):
            self.find(189, offset)
        for name, target in entries:
            if name & TEXT and self.text(name) is None:
                self.find(183, name % TEXT)
            if target & TEXT:
                self.read_directory(target % TEXT, (*path, name))
            else:
                self.read_leaf(target, (*path, name))

    def is_unordered(self, one, other):
        """Whether an entry does not come after the one before it. A text that is not held counts as empty."""
        if one & TEXT and other & TEXT:
            texts = [self.text(it) or b"" for it in (one, other)]
            first, second = ([uint(it, k, 2) for k in range(0, min(len(it), 2 * COMPARED), 2)] for it in texts)
            return not (first < second or first == second and len(first) == COMPARED)
        return not one & TEXT and (bool(other & TEXT) or other <= one)

    def read_leaf(self, offset, path):
        if offset + 16 > len(self.held):
            self.find(184, offset)
            return
        leaf = Leaf(path, *struct.unpack_from("<III", self.held, offset))
        if len(path) < 3:
            self.find(186, offset)
        if leaf.rva + leaf.size > self.image.size:
            self.find(188, offset)
        self.leaves.append(leaf)

    def text(self, name):
        """The UTF-16 units of a text that names an entry."""
        offset = name % TEXT
        if offset + 2 > len(self.held) or offset + 2 + 2 * uint(self.held, offset, 2) > len(self.held):
            return None
        return self.held[offset + 2 : offset + 2 + 2 * uint(self.held, offset, 2)]

    def data(self, leaf):
        held = self.held_from(leaf.rva)
        return held[: leaf.size] if leaf.size <= len(held) else None

    def only(self, kind, choose):
        """The leaf of a type and its data: of the name that is chosen, and of its first language; data that are not held are None."""
        def below(entries):
            found = [target for _, target in entries[:1]]
            offset = found[0] % TEXT if found and found[0] & TEXT else len(self.held)
            return self.entries(offset)[0] if offset + 16 <= len(self.held) else []
        root = self.entries(0)[0] if len(self.held) >= 16 else []
        name = choose(below([it for it in root if it[0] == kind]))
        language = below(name)[:1]
        if not language or language[0][1] & TEXT or language[0][1] + 16 > len(self.held):
            return None
        leaf = Leaf((kind, name[0][0], language[0][0]), *struct.unpack_from("<III", self.held, language[0][1]))
        return leaf, self.data(leaf)

    # ---- version information

    @property
    def strings(self):
        """The strings of all tables, each with the key of its table."""
        return [(table, key, value) for table, strings in self.tables for key, value in strings]

    def read_version(self, rva, data):
        """Reads the fixed part, and the strings of the tables of each StringFileInfo."""
        has_key = data[6:38] == "VS_VERSION_INFO\0".encode("utf-16-le")
        if has_key and len(data) >= 92 and uint(data, 2, 2) == 52 and uint(data, 40, 4) == 0xFEEF04BD:
            self.fixed = struct.unpack_from("<9I", data, 48)
        else:
            self.findings.append((211, rva))
        if not has_key:
            return
        if uint(data, 0, 2) > len(data):
            self.findings.append((212, rva))
        for key, _, children, end in self.blocks(rva, data, up(40 + uint(data, 2, 2)), min(uint(data, 0, 2), len(data))):
            for table, _, strings, table_end in self.blocks(rva, data, children, end) if key == "StringFileInfo".encode("utf-16-le") else []:
                self.tables.append((table, [(name, value) for name, value, _, _ in self.blocks(rva, data, strings, table_end)]))

    def blocks(self, rva, data, at, end):
        """The blocks from a place on: the key, the value, where the children begin, and the end of each."""
        while at + 6 <= end:
            length, value_length, kind = struct.unpack_from("<HHH", data, at)
            if length < 6:
                self.findings.append((214, rva + at))
                return
            if length > end - at:
                self.findings.append((212, rva + at))
                return
            last = at + length
            units = data[at + 6 : last - (last - at) % 2]
            zeros = [k for k in range(0, len(units), 2) if units[k : k + 2] == bytes(2)]
            if not zeros:
                self.findings.append((213, rva + at))
                yield units, b"", last, last
            else:
                start = min(up(at + 6 + zeros[0] + 2), last)
                size = min(value_length * (2 if kind == 1 else 1), last - start)
                yield units[: zeros[0]], data[start : start + size], min(up(start + size), last), last
            at = up(last)


def up(offset):
    return (offset + 3) // 4 * 4


def utf8(units):
    return units[: len(units) // 2 * 2].decode("utf-16-le", "replace").encode()


def value_text(value):
    """The value of a string up to the first zero."""
    zeros = [k for k in range(0, len(value) - 1, 2) if value[k : k + 2] == bytes(2)]
    return utf8(value[: zeros[0]] if zeros else value)


# ---- rows


def quoted(name):
    return '"' + "".join(chr(c) if 0x20 <= c <= 0x7E and c not in b'"\\' else f"\\x{c:02x}" for c in name) + '"'


def is_safe(text, unsafe):
    try:
        return not unsafe.search(text.decode())
    except UnicodeDecodeError:
        return False


def part(resources, name, unsafe, is_type=False):
    """A name in a path: a number, or a text, which is in quotes unless it is one word that is no number."""
    if is_type and name in TYPES:
        return TYPES[name]
    if not name & TEXT:
        return str(name)
    units = resources.text(name)
    if units is None:
        return "?"
    text = utf8(units)
    cut = text[:255]
    is_word = cut and not cut[:1].isdigit() and not set(cut) & set(b' "/\\') and is_safe(cut, unsafe)
    return (cut.decode() if is_word else quoted(cut)) + (".." if len(text) > 255 else "")


def path_words(resources, leaf, unsafe):
    return "/".join(part(resources, name, unsafe, k == 0) for k, name in enumerate(leaf.path))


def language_words(language):
    """The tag of a language; that of a primary language alone is that of its first country without it."""
    if language in TAGS:
        return TAGS[language]
    first = TAGS.get(language | 0x400, "") if language < 0x400 else ""
    return first.split("-")[0] if "-" in first else f"language 0x{language:04x}"


def version_words(high, low):
    return f"{high >> 16}.{high & 0xffff}.{low >> 16}.{low & 0xffff}"


def string_of(resources, wanted):
    """The first string with a key that is not empty."""
    found = [value_text(value) for _, key, value in resources.strings if key == wanted.encode("utf-16-le")]
    return next((it for it in found if it), None)


def summary(resources, shown):
    words = f"{len(resources.leaves):,} {'leaf' if len(resources.leaves) == 1 else 'leaves'}"
    if resources.fixed:
        words += f", version {version_words(*resources.fixed[:2])}"
    description = string_of(resources, "FileDescription")
    return words + (f" '{shown(description, 255)}'" if description else "")


def identity_rows(resources, shown):
    """What the version information says the file is."""
    for label, key in (("Product", "ProductName"), ("Company", "CompanyName")):
        value = string_of(resources, key)
        if value:
            yield f"  {label:11}  {shown(value)}"
    if resources.fixed:
        yield f"  Version      {version_words(*resources.fixed[:2])}, of the product {version_words(*resources.fixed[2:4])}"


def tree_rows(resources, unsafe):
    if not resources.leaves:
        return
    yield f"\nResources ({len(resources.leaves):,})"
    before = None
    for leaf in resources.leaves:
        if leaf.path[0] != before:
            yield f"  {part(resources, leaf.path[0], unsafe, True)}"
        before = leaf.path[0]
        name, language = (*leaf.path[1:], None, None)[:2]
        words = [part(resources, name, unsafe) if name is not None else "-", language_words(language) if language is not None else "-"]
        row = f"    {'  '.join(words)}  0x{leaf.rva:06x}  {leaf.size:,} {'byte' if leaf.size == 1 else 'bytes'}"
        yield row + (f", code page {leaf.code_page}" if leaf.code_page else "")


def version_rows(resources, shown):
    if not resources.version or resources.version[1] is None:
        return
    yield "\nVersion information"
    if resources.fixed:
        yield f"  FileVersion     {version_words(*resources.fixed[:2])}"
        yield f"  ProductVersion  {version_words(*resources.fixed[2:4])}"
        for label, value in zip("FileFlagsMask FileFlags FileOS FileType FileSubtype".split(), resources.fixed[4:]):
            yield f"  {label:14}  0x{value:x}"
    for table, key, value in resources.strings:
        yield f"  {shown(utf8(table), 255)}  {shown(utf8(key), 255)}  {shown(value_text(value))}"


def manifest_rows(resources, unsafe):
    if not resources.manifest or resources.manifest[1] is None:
        return
    yield "\nManifest"
    text = resources.manifest[1]
    text = text[3:] if text.startswith(b"\xef\xbb\xbf") else text
    for line in (text[:-1] if text.endswith(b"\n") else text).split(b"\n"):
        line = line[:-1] if line.endswith(b"\r") else line
        yield "  " + (line.decode() if is_safe(line.replace(b"\t", b""), unsafe) else quoted(line))


def rows(resources, shown, unsafe):
    """The rows of the resources, of the version information and of the manifest."""
    yield from tree_rows(resources, unsafe)
    yield from version_rows(resources, shown)
    yield from manifest_rows(resources, unsafe)


def place_words(resources, rva, unsafe):
    """The first leaf whose data have an RVA."""
    found = next((leaf for leaf in resources.leaves if leaf.rva <= rva < leaf.rva + leaf.size), None)
    return f"  in leaf {path_words(resources, found, unsafe)} +0x{rva - found.rva:x}" if found else ""
