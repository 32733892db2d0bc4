"""Definitions by their names of today: those whose name another file had too, those with plainer names, and those that stand in
another file. Prepared work has `openToldBy` beside `openTold`, and follows it.

A name is found where it is meant: in the file that defines it, and in files that import it from there, by its name or through the
name of its module. Files of code have it in ghost imports and in contracts.
"""
import os
import re

# In specs/ of the crate, by file.
NAMES = {
    'attachment/Attached': {'letter': 'numberLetter', 'onlyIf': 'nodesIf', 'starts': 'startOffsets'},
    'attributes/Attributes': {'Step': 'ScanStep', 'step': 'scanStep', 'ended': 'endOfText', 'resume': 'scanOn', 'scan': 'attributeScan', 'tell': 'report'},
    'attributes/Inner': {'closing': 'closingPlace', 'told': 'findingOfKind'},
    'buffer/Over': {'limit': 'placeLimit'},
    'closing/Ends': {'Tellable': 'UnclosedReady'},
    'cursor/Inner': {'Plain': 'PlainByte'},
    'cursor/Steps': {'placeOf': 'nodePlace', 'valueOf': 'numberRead'},
    'definition/Checks': {'nextBy': 'expectedAfter', 'leafTold': 'leafChecked'},
    'definition/Examples': {'at': 'row', 'table': 'exampleTable', 'given': 'findingsOf', 'wantedOf': 'wantedFindings'},
    'definition/Milestones': {'openAfter': 'startsAfter', 'met': 'withVisit'},
    'definition/Outcome': {'blanks': 'repeated'},
    'definition/State': {'Told': 'NodeChecked', 'State': 'WalkState', 'Around': 'WalkContext'},
    'definition/Walk': {'after': 'afterNode', 'before': 'withFindings', 'openTold': 'openChecked', 'openToldBy': 'openCheckedBy'},
    'findings/Codes': {'codes': 'codeCount'},
    'findings/Written': {'limit': 'countLimit'},
    'listing/Lines': {'placeOf': 'lineAndColumn'},
    'marker_checks/Own': {'Marked': 'MarkerVisited'},
    'marker_checks/Skip': {'askedFor': 'hasOwnCheck'},
    'message_texts/Inner': {'Plain': 'NoValues'},
    'messages/Answer': {'Answer': 'MessageAnswer', 'answerBy': 'messageAnswerBy'},
    'messages/Inner': {'answerOf': 'messageAnswerOf', 'Readable': 'DocumentNode'},
    'messages/Message': {'glued': 'hasGluedLabel', 'letter': 'letterBytes'},
    'milestones/Inner': {'named': 'isMilestoneNamed', 'ToldAlone': 'WroteEndAlone'},
    'milestones/Steps': {'Stepped': 'MilestoneStep'},
    'numbers/Label': {'refusalOf': 'labelCheckRefusal'},
    'numbers/Verse': {'nextBy': 'nextPosition'},
    'oracle_exports/Inner': {'Anchored': 'SiblingsAfter'},
    'oracle_exports/Told': {'orElse': 'numberOr', 'positionTold': 'positionFrom', 'numberTold': 'numberWord', 'letterTold': 'letterWord', 'nextTold': 'nextFrom',
                            'startTold': 'startWord', 'endTold': 'endWord'},
    'rows/Cells': {'Range': 'ColumnRange'},
    'state/Running': {'starts': 'openNodes', 'Sane': 'VerseBounded', 'aroundOf': 'contextOf'},
    'table/Books': {'codes': 'bookCodes'},
    'table/Entries': {'entryOf': 'entryFrom', 'placeOf': 'layoutPlace'},
    'table/Inner': {'Marked': 'LinesRead', 'Passed': 'LinesGood', 'nameOf': 'nameLength', 'wordsOf': 'linesOf'},
    'table/Names': {'glued': 'gluedDigit', 'named': 'entryNamed', 'orElse': 'firstKnown'},
    'tally/Tally': {'answerOf': 'tallyAnswerOf'},
    'tape/Conditions': {'Plain': 'GoodNodes'},
    'tape/Forest': {'before': 'joinNode'},
    'tape/Inner': {'met': 'refusedOrRest'},
    'tape/Reading': {'refusalOf': 'tapeCheckRefusal'},
    'text/Blank': {'blanks': 'blankRanges'},
    'text/Characters': {'before': 'bytesBefore', 'starts': 'isBoundary'},
    'text/Pick': {'span': 'range'},
    'text/Utf8': {'after': 'afterWidth', 'table': 'table3-7', 'placeOf': 'utf8Place'},
    'text/Words': {'solid': 'notBlank'},
    'trial_items/Items': {'at': 'verse', 'positionOf': 'positionOutcome', 'given': 'outcomesOf', 'wantedOf': 'wantedOutcomes'},
    'validate/Entry': {'Ended': 'MissingWritten', 'Opened': 'AcceptedEntries', 'Passed': 'AcceptedIndex'},
    'walk/Walking': {'Walked': 'RunWalked', 'toldAt': 'openCheckedAt'},
}
# Fields of the definition's record and context; in crate definition they are read of nothing else.
FIELDS = {'outsideWarned': 'verseOutsideWarned', 'chapter': 'expectedChapter', 'verse': 'expectedVerse', 'body': 'inBodyPara', 'note': 'inNote', 'char': 'inChar'}
SEPARATOR = r'\s(){}\[\],;⌜⌝'
IMPORT = re.compile(r'^(?:ghost )?use Rattle·(\w+)(?:·specs)?\.specs\.(\w+)(?:\.\{(.*)\}| as ([^\s;]+))?;?\s*$', re.M)


def tokens(text, names):
    """Replaces names that stand by themselves, but for fields of records."""
    for old, new in names.items():
        word = r'(?<![^%s])%s(?=[%s]|$)' % (SEPARATOR, re.escape(old), SEPARATOR)

        def replaced(line):
            if re.match(r'\s+(pub )?%s( :|  *=.*;$)' % re.escape(old), line) or line.lstrip().startswith(('--', '//')):
                return line
            return re.sub(word + r'(?! = [^}]*[;}])' if 'record {' in line else word, new, line)
        text = '\n'.join(replaced(line) for line in text.split('\n'))
    return text


def renamed(path, text):
    """A file's text with the names of today. The path is that below the repository."""
    names, through = {}, {}

    def imported(m):
        module, found = m[1] + '/' + m[2], m[0]
        own = NAMES.get(module, {})
        if m[3] is not None:
            parts = []
            for part in m[3].split(','):
                name, _, alias = part.strip().partition(' as ')
                if name in own:
                    if not alias:
                        names[name] = own[name]
                    part = part.replace(name, own[name], 1)
                parts.append(part)
            return found[:m.start(3) - m.start()] + ','.join(parts) + found[m.end(3) - m.start():]
        through[m[4] or m[2]] = own
        return found
    lines = IMPORT.sub(imported, text)
    place = re.match(r'crates/(\w+)/specs/(\w+)\.antt$', path)
    if place:
        names.update(NAMES.get(place[1] + '/' + place[2], {}))
    elif path.startswith('proof_writer/descriptions/'):
        crate = os.path.basename(path)[:-3]
        for module in re.findall(r"'((?:\w+::)?specs/\w+)'", lines):
            owner, _, name = module.rpartition('::')
            names.update(NAMES.get((owner or crate) + '/' + name.partition('/')[2], {}))

    def within(part):
        part = tokens(part, names)
        for alias, own in through.items():
            for old, new in own.items():
                part = re.sub(r'(?<![^%s])%s\.%s(?=[%s.]|$)' % (SEPARATOR, re.escape(alias), re.escape(old), SEPARATOR), alias + '.' + new, part)
        return part
    if path.startswith('crates/definition/'):
        for old, new in FIELDS.items():
            lines = re.sub(r'(?<= \.)%s(?![\w-])|(?<=^      )%s(?= =.*;$)' % (old, old), new, lines, flags=re.M)
    if path.endswith('.rt'):
        return re.sub(r'⌜.*?⌝', lambda m: within(m[0]), lines, flags=re.S)
    if path.endswith('.antt'):
        # Imports were done above.
        return '\n'.join(line if line.startswith('use ') else within(line) for line in lines.split('\n'))
    if path.endswith('.py'):
        for old, new in names.items():
            lines = re.sub(r"(?<![^%s'$])%s(?=[%s']|$)" % (SEPARATOR, re.escape(old), SEPARATOR), new, lines)
        return lines
    return text


# Definitions that stand in another file of specs/ now, by the names of today.
MOVED = {
    'table/Bytes': ({'equal', 'all', 'oneOf', 'starting', 'beyond'}, 'text/Bytes'),
    'definition/Checks': ({'upper'}, 'text/Bytes'),
    'findings/Written': ({'bySeverity', 'counted', 'Wrote', 'countLimit', 'Room'}, 'findings/Inner'),
    'table/Entries': ({'pack', 'Sound', 'Indexed', 'leaves'}, 'table/Inner'),
    'messages/Inner': ({'requestBy', 'messageAnswerOf'}, 'messages/Answer'),
    'listing/Inner': ({'farthest'}, 'listing/Lines'),
    'validate/Entry': ({'checkRefusal', 'AcceptedIndex', 'AcceptedEntries', 'sourceRefusal', 'listsRefusal', 'fromLabels', 'fromTape', 'fromSource', 'fromTable', 'none-yet', 'fresh',
                        'Ran', 'Fit', 'reported', 'Finished', 'Begun', 'Endable', 'MissingWritten'}, 'validate/Inner'),
}
# Files of specs/ that have another name now.
MODULES = {
    'walk/Walking': 'Inner', 'state/Running': 'Inner', 'closing/Ends': 'Inner', 'text/Scans': 'Inner', 'chapter_verse/Leaves': 'InnerVisit', 'marker_checks/Own': 'InnerVisit',
    'marker_checks/Skip': 'InnerSkip', 'milestones/Steps': 'InnerStep', 'oracle_exports/Told': 'Words', 'listing/Marks': 'LinesAndColumns',
}


def moved(text, here=None):
    """A file's imports of definitions that stand in another file now. `here` is the crate of the file."""
    added = {}

    def imported(m):
        module = m[1] + '/' + m[2]
        if module not in MOVED or m[3] is None:
            return m[0]
        names, to = MOVED[module]
        stay = []
        for part in m[3].split(','):
            (added.setdefault((to, m[0].startswith('ghost ')), []) if part.strip().partition(' as ')[0] in names else stay).append(part.strip())
        return m[0][:m.start(3) - m.start()] + ', '.join(stay) + m[0][m.end(3) - m.start():] if stay else '\0'
    text = IMPORT.sub(imported, text).replace('\0\n', '')
    for (to, ghost), names in added.items():
        crate, module = to.split('/')
        inside = crate == here
        line = '%suse Rattle·%s%s.specs.%s.{%s}%s\n' % ('ghost ' if ghost else '', crate, '·specs' if inside else '', module, ', '.join(names), ';' if ghost else '')
        last = list(re.finditer(r'^(?:ghost )?use Rattle·.*\n', text, re.M))
        at = last[-1].end() if last else 0
        text = text[:at] + line + text[at:]
    for module, name in MODULES.items():
        crate, old = module.split('/')
        text = re.sub(r'(Rattle·%s(?:·specs)?\.specs\.)%s(?=[.;\s])' % (crate, old), r'\g<1>' + name, text)
    return text
