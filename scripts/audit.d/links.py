# The links of the pages of a folder: each has to lead to a file of it, and to a place in that file.
import html
import os
import re
from functools import lru_cache

HREF = re.compile(r'<(?:a|img)\b[^<>]*?\b(?:href|src)="([^"]*)"')
PLACE = re.compile(r'<\w+\b[^<>]*?\bid="([^"]*)"')


def dead(out):
    """What is wrong with the links of the pages under out."""
    @lru_cache(None)
    def anchors(path):
        with open(path, encoding='utf-8', errors='replace') as file:
            return set(map(html.unescape, PLACE.findall(file.read())))

    wrong = []
    for folder, _, files in os.walk(out):
        for name in sorted(f for f in files if f.endswith('.html')):
            path = os.path.join(folder, name)
            with open(path, encoding='utf-8') as file:
                found = dict.fromkeys(HREF.findall(file.read()))
            for link in found:
                target, _, anchor = html.unescape(link).partition('#')
                to = os.path.normpath(os.path.join(folder, target)) if target else path
                if re.match(r'https?:', link):
                    continue
                if not os.path.isfile(to) or anchor and anchor not in anchors(to):
                    wrong.append('%s: the link %s leads nowhere' % (os.path.relpath(path, out), link))
    return wrong
