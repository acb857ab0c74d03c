"""Images of older layouts for the tests, from the words of docs/TFNODE.md and of document 01."""

from tool import HEADER_WORDS, bytes_of, words_of

NONE = 4294967295
VALID, INVALID = 65535, 0
OLDER, NEWEST = 1, 2
AT_VERSION, AT_RECORD_WORDS = 2, 16


def image_of(version, geometry, slices):
    """The image of a node: its header, and its slices one after the other."""
    header = [version, HEADER_WORDS, 6, *map(int, geometry.split(",")), 5, *map(len, slices)]
    return b"TFNODE\r\n" + bytes_of(header + [word for words in slices for word in words])


def empty(geometry):
    """The slices of an empty node, whose record has five words, as 01's format has them."""
    p, w, d, t, l, c = map(int, geometry.split(","))
    return [[NONE] * ((d + t) * p * w), [NONE] * ((d + t) * p * 2), [NONE] * -(-l // w), [NONE] * (c * 3), [0, 0, d, 0, 0]]


def after_session():
    """The slices after 01's session, as 01 gives them; 7 stands in invalid pages, where any word may."""
    chip = [14, 14, 15, 15, 7, 7, 13, 13] + [NONE] * 8 + [7, 7, 3, NONE, 7, 7, 2, 0]
    spare = [VALID, 1, VALID, 0, INVALID, 0, VALID, 2] + [NONE] * 8 + [INVALID, 0, VALID, 1, INVALID, 0, VALID, 0]
    return [chip, spare, [11, 9], [0, 1, 1], [0, 2, 5, 2, 1]]


def with_header(words, version, record_words):
    return words[:AT_VERSION] + [version] + words[AT_VERSION + 1:AT_RECORD_WORDS] + [record_words] + words[AT_RECORD_WORDS + 1:]


def as_older(image):
    """An image of version 2 as version 1 had it, without the protected entries; 01's rules allow any order of the entries."""
    return bytes_of(with_header(words_of(image)[:-1], OLDER, 5))


def as_newest(image):
    """What an image of version 1 is to become: version 2, no entry protected, and every other word as it was."""
    return bytes_of(with_header(words_of(image), NEWEST, 6) + [0])
