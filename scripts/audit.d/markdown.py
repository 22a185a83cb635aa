# As much of Markdown as the pages of this repository use, turned into HTML: headings, paragraphs, lists, tables, code,
# links and pictures. The pack of the auditor is made with it, on a machine that has python3 and nothing else.
import html
import re


def anchor(text):
    """The name by which a link finds a heading."""
    return re.sub(r'[^\w\- ]', '', re.sub(r'[`*]', '', text).lower()).strip().replace(' ', '-')


def inline(text, link, inside=False):
    """Code, links, pictures, bold and slanted text of one paragraph; inside a link there is no other."""
    kept = []

    def keep(piece):
        kept.append(piece)
        return '\0%d\0' % (len(kept) - 1)

    def linked(m):
        claim = re.fullmatch(r'Claim-\d+', m.group(2))
        target = claim and link('claim:' + claim.group(0)) or link(m.group(3))
        if m.group(1):
            return keep('<img src="%s" alt="%s">' % (html.escape(target or ''), html.escape(m.group(2))))
        words = inline(m.group(2), link, inside=True)
        return keep('<a href="%s">%s</a>' % (html.escape(target), words) if target else words)

    def numbered(name, kind):
        target = None if inside else link('%s:%s' % (kind, name))
        return keep('<a href="%s">%s</a>' % (target, name)) if target else name

    def quoted(m):
        words = html.escape(m.group(1).replace('\\|', '|'))
        built = link('built:' + m.group(1)) if re.fullmatch(r'\w+\.(html|txt)', m.group(1)) and not inside else None
        return keep('<a href="%s">%s</a>' % (built, words) if built else '<code>%s</code>' % words)

    text = re.sub(r'`([^`]+)`', quoted, text)
    text = re.sub(r'(!?)\[([^\]]*)\]\(([^)\s]+)\)', linked, text)
    text = re.sub(r'\b(?:Claim|Demand|Request)-\d+\b', lambda m: numbered(m.group(0), 'claim'), text)
    # a sentence of paper 01 is named with the paper, 01 F3
    text = re.sub(r'\b01 ([A-Z]\d+)\b', lambda m: '01 ' + numbered(m.group(1), 'sentence'), text)
    # a decision's own paragraph begins with its number
    text = re.sub(r'^\*\*(D\d+)\.', lambda m: keep('<a id="%s"></a>' % m.group(1)) + m.group(0), text)
    text = re.sub(r'(?<!\*\*)\bD\d+\b', lambda m: numbered(m.group(0), 'decision'), text)
    text = html.escape(text.replace('\\|', '|'), quote=False)
    text = re.sub(r'\*\*(.+?)\*\*', r'<b>\1</b>', text)
    text = re.sub(r'(?<![\w*])\*([^*\s][^*]*)\*(?![\w*])', r'<i>\1</i>', text)
    while '\0' in text:
        text = re.sub('\0(\\d+)\0', lambda m: kept[int(m.group(1))], text)
    return text


def row(line, cell, link):
    cells = re.split(r'(?<!\\)\|', line.strip().strip('|'))
    # a sentence's own row begins with its name, and one of the standard with its place
    named = re.match(r'\s*([A-Z]\d+(?:\.\d+)?|\d+(?:\.\d+)*-\d+(?:\.\d+)?) ', cells[0])
    mark = ' id="%s"' % named.group(1) if named else ''
    return '<tr%s>%s</tr>' % (mark, ''.join('<%s>%s</%s>' % (cell, inline(c.strip(), link), cell) for c in cells))


def block_of(lines, k, starts):
    """The lines from k on up to one that starts something else."""
    end = k + 1
    while end < len(lines) and lines[end].strip() and not re.match(starts, lines[end]):
        end += 1
    return end


def a_list(lines, k, link):
    """A list, each item with all that is indented below it."""
    number = re.match(r'\d+\. ', lines[k])
    mark = r'\d+\. ' if number else r'[-*] '
    items = []
    while k < len(lines) and re.match(mark, lines[k]):
        width = len(re.match(mark, lines[k]).group(0))
        item, k = [lines[k][width:]], k + 1
        while k < len(lines) and (not lines[k].strip() or lines[k].startswith(' ')):
            if not lines[k].strip() and not (k + 1 < len(lines) and lines[k + 1].startswith(' ')):
                break
            item.append(lines[k][min(width, len(lines[k]) - len(lines[k].lstrip())):])
            k += 1
        while k < len(lines) and not lines[k].strip() and k + 1 < len(lines) and re.match(mark, lines[k + 1]):
            k += 1
        inner = to_html('\n'.join(item), link)
        items.append('<li>%s</li>' % re.sub(r'^<p>(.*?)</p>', r'\1', inner, count=1, flags=re.S))
    return '<%s>%s</%s>' % (('ol' if number else 'ul',) + ('\n'.join(items),) + ('ol' if number else 'ul',)), k


STARTS = r'(#+ |```|\||[-*] |\d+\. )'


def to_html(text, link):
    """link gives a link's place, and that of 'claim:', 'decision:', 'sentence:' or 'built:' NAME, or None for none."""
    lines, out, k = text.split('\n'), [], 0
    while k < len(lines):
        line = lines[k]
        heading = re.match(r'(#+) (.*)', line)
        if not line.strip():
            k += 1
        elif heading:
            level, words = len(heading.group(1)), heading.group(2)
            out.append('<h%d id="%s">%s</h%d>' % (level, anchor(words), inline(words, link), level))
            k += 1
        elif line.startswith('```'):
            end = next((e for e in range(k + 1, len(lines)) if lines[e].startswith('```')), len(lines))
            out.append('<pre>%s</pre>' % html.escape('\n'.join(lines[k + 1:end])))
            k = end + 1
        elif line.startswith('|'):
            end = block_of(lines, k, r'(?!\|)')
            rows = [row(line, 'th', link)] + [row(l, 'td', link) for l in lines[k + 2:end]]
            out.append('<table>%s</table>' % '\n'.join(rows))
            k = end
        elif re.match(r'([-*] |\d+\. )', line):
            made, k = a_list(lines, k, link)
            out.append(made)
        else:
            end = block_of(lines, k, STARTS)
            out.append('<p>%s</p>' % inline('\n'.join(lines[k:end]), link))
            k = end
    return '\n'.join(out)
