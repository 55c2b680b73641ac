#!/usr/bin/env python3
"""Renames functions whose names are bare participles, adjectives or prepositions.

    rename.py ROOT [--crates a,b,..] [--dry] [--list]

ROOT is a clone of the repository. Each row of TABLE is a function: crate, file under src/ (no ending), the type whose
method it is ('' for a free function), old name, new name, and options:
  'recv'   what stands before the dot of a call (a regular expression; the default is any receiver in the files of 'where')
  'where'  where it is called: 'file' (its own file; the default), 'crate' (its crate), 'all', or a list of crates
  'qual'   a path before the name at calls, as 'admission'
A row whose function is not there (renamed already, or gone) is passed over and said. What is changed of each row:
  src        `fn OLD`; calls `OLD(` and `OLD::<`; the name in `use` lists (never in `ghost use`); `OLD` passed by name where listed
  proofs     the folder of the function; paths `Rattle.CRATE.proofs.FILE.TYPE.OLD.`; in the folders of the functions that call it,
             the parts of names of goals and steps (`OLD-requires`, `c.in_ok-OLD.ensures`, `else-OLD`), but not words, clauses, variables
  must-fail  `old:` and `new:` lines that stand in a file with a call
  docs       what is listed in DOCS
Words of specs/ that have the same name stay, but for those in WORDS.
"""
import os, re, sys, subprocess

# crate, file, type, old, new, options
TABLE = [
    # bytes, reading
    ('wf_codec', 'field', '', 'bad', 'bad_field', {'where': 'crate'}),
    ('wf_cursor', 'cursor', 'Cursor', 'left', 'tokens_left', {'where': 'all', 'recv': r'(?:self|cursor)'}),
    ('wf_cursor', 'cursor', 'Cursor', 'ahead', 'next_token', {'recv': 'self'}),
    ('wf_cursor', 'cursor', 'Cursor', 'oversize', 'oversize_fault', {'where': 'all', 'recv': r'(?:self|cursor)'}),
    ('wf_cursor', 'cursor', 'Cursor', 'declared', 'declaration', {'recv': 'self'}),
    ('wf_cursor', 'value', '', 'saturated', 'capped_number', {}),
    ('wf_phrase', 'literals', '', 'negated', 'negative_number', {}),
    ('wf_phrase', 'operators', '', 'negative', 'negative_of', {'where': 'crate'}),
    ('wf_phrase', 'operators', '', 'binary', 'binary_expr', {'where': 'crate'}),
    # checking
    ('wf_expr', 'values', '', 'binary', 'binary_value', {}),
    ('wf_check', 'sorts', '', 'alike', 'are_alike', {'where': 'crate'}),
    ('wf_check', 'names', '', 'misnamed', 'name_fault_of', {}),
    ('wf_check', 'names', '', 'misnamed_at', 'name_fault_at', {}),
    ('wf_check', 'shape', '', 'unfit', 'kind_fault', {}),
    # running
    ('wf_actions', 'joined', '', 'joined', 'concatenation', {'where': 'crate'}),
    ('wf_actions', 'writes', '', 'over', 'winning_write', {}),
    ('wf_actions', 'writes', '', 'present', 'present_writes', {}),
    ('wf_activities', 'admission', '', 'after', 'answer_unless_pending', {'where': 'crate', 'qual': 'admission'}),
    ('wf_activities', 'completions', '', 'completed', 'completion_of', {}),
    ('wf_activities', 'completions', '', 'open_then', 'open_counts_then', {'where': 'crate', 'qual': 'completions'}),
    ('wf_activities', 'all_items', 'AllItems', 'open_then', 'open_counts_then', {'where': 'all', 'recv': r'self\.items'}),
    ('wf_activities', 'completions', '', 'done_in', 'done_bits', {'where': 'all'}),
    ('wf_activities', 'numbers', '', 'numbered', 'item_numbers', {'where': 'crate', 'qual': 'numbers'}),
    ('wf_activities', 'tables', '', 'wanted', 'wanted_outputs', {'where': 'crate', 'qual': 'tables'}),
    # parts, views
    ('wf_ortho', 'components', '', 'entering', 'entering_ids', {}),
    ('wf_ortho', 'components', '', 'leaving', 'leaving_ids', {}),
    ('wf_updates', 'view', 'View', 'inside', 'states_inside', {'where': 'all', 'recv': r'(?:self|view)'}),
    ('wf_updates', 'view', 'View', 'there_now', 'events_there_now', {'where': 'all', 'recv': r'(?:self|view)'}),
    ('wf_updates', 'view', 'View', 'unclosed', 'open_counts', {'where': 'all', 'recv': r'(?:self|view|left|right|copy)'}),
    ('wf_updates', 'view', 'View', 'next', 'next_entries', {'where': 'all', 'recv': r'(?:view|copy|left|right)'}),
    ('wf_updates', 'view', 'View', 'unclosed_now', 'open_counts_now', {'where': 'all', 'recv': r'(?:self|view)'}),
    ('wf_updates', 'view', 'View', 'done_now', 'done_acts_now', {'where': 'all', 'recv': r'(?:self|view)'}),
    ('wf_updates', 'after', '', 'unclosed_after', 'open_counts_after', {'where': 'crate'}),
    ('wf_updates', 'after', '', 'moved', 'states_by_flips', {}),
    ('wf_updates', 'after', '', 'left_open', 'open_count', {}),
    ('wf_updates', 'tables', '', 'over', 'winning_write', {}),
    ('wf_flat', 'gathered', '', 'ascending', 'ascending_events', {'where': 'crate'}),
    ('wf_flat', 'firing', '', 'ready', 'enabled_bits', {}),
    ('wf_flat', 'firing', '', 'fired', 'firing_bits', {}),
    ('wf_flat', 'steps', '', 'merged', 'merged_writes', {}),
    # servers
    ('wf_steps', 'recovery', '', 'bad', 'bad_record', {}),
    ('wf_steps', 'replica', 'Replica', 'sealing', 'next_sealed', {'where': 'all', 'recv': r'(?:self|(?:self\.)?replica)'}),
    ('wf_steps', 'replica', 'Replica', 'waiting', 'pending_admissions', {'recv': 'self'}),
    ('wf_steps', 'replica', 'Replica', 'last', 'last_update', {'where': 'all', 'recv': r'(?:self\.)?replica'}),
    ('wf_steps', 'replica', 'Replica', 'next', 'next_update', {'where': 'all', 'recv': r'(?:self\.)?replica'}),
    ('wf_server', 'node/inbox', 'Node', 'compared', 'comparison', {'recv': 'self'}),
    ('wf_server', 'node/inbox', '', 'missing', 'missing_peers', {'where': 'crate'}),
    ('wf_server', 'node/letters', 'Node', 'made', 'own_update', {'where': 'crate', 'recv': 'self'}),
    ('wf_server', 'node/admission', '', 'repeated', 'earlier_admission', {}),
    # threads, worlds
    ('wf_exchange', 'making', '', 'unlinked', 'unlinked_ports', {}),
    ('wf_worklist', 'listing', '', 'completed', 'completion_bits', {}),
    ('wf_world', 'fleet/ending', 'Fleet', 'merged', 'merged_list', {'recv': 'self'}),
    ('wf_world', 'mail', 'Mail', 'all', 'messages', {'where': 'crate', 'recv': r'(?:self\.)?mail'}),
    ('wf_agreement', 'comparing', '', 'sent', 'sent_update', {}),
    ('wf_agreement', 'comparing', '', 'larger', 'larger_of', {}),
    ('wf_agreement', 'walk', 'Walk', 'through', 'to_end', {'recv': 'walk'}),
    ('wf_slot', 'slot/falling', '', 'in_doubt', 'doubt_after', {'where': 'crate'}),
    # texts, plays, generated input
    ('wf_scripts', 'outer', '', 'completed', 'completion', {}),
    ('wf_scripts', 'values', '', 'single', 'single_value', {}),
    ('wf_scripts', 'values', '', 'negated', 'negative_int', {}),
    ('wf_audit', 'central', '', 'answered', 'admission_reply', {}),
    ('wf_play', 'lines', '', 'positive', 'positive_count', {}),
    ('wf_play', 'lines', '', 'delivering', 'deliver_line', {}),
    ('wf_play', 'lines', '', 'sending', 'send_line', {}),
    ('wf_play', 'lines', '', 'crashing', 'crash_line', {}),
    ('wf_play', 'lines', '', 'admitting', 'admit_line', {}),
    ('wf_play', 'lines', '', 'arming', 'arm_line', {}),
    ('wf_gen', 'chart', '', 'checked', 'sealed_chart', {'where': 'crate'}),
    ('wf_gen', 'transitions', '', 'binary', 'binary_expr', {}),
    ('wf_partition', 'marks', '', 'concerned', 'concerned_bits', {'where': 'crate'}),
    ('wf_partition', 'knowing', '', 'either', 'either_bits', {}),
    # a crate that waits outside the repository: its rows are passed over while it isn't there
    ('wf_server_tests', 'admissions', '', 'done', 'completion_by', {'where': 'crate'}),
    ('wf_server_tests', 'charts', '', 'quiet', 'quiet_update', {'where': 'crate'}),
    ('wf_server_tests', 'updates', '', 'said', 'answer_word', {}),
    ('wf_server_tests', 'journals', '', 'started', 'answer_of_start', {}),
    ('wf_server_tests', 'misfits', '', 'fits', 'fit_updates', {'where': 'crate'}),
    ('wf_world_tests', 'plays', '', 'two', 'chart_two', {'where': 'crate'}),
    ('wf_world_tests', 'plays', '', 'after', 'world_after_lines', {}),
    ('wf_world_tests', 'plays', '', 'played', 'world_after_play', {'where': 'crate'}),
    # tests
    ('wf_calls', 'printed', '', 'printed', 'canonical_text', {}),
    ('wf_calls', 'printed', '', 'canonical', 'canonical_texts_are_printed', {}),
    ('wf_calls', 'by_hand', '', 'changed', 'changed_chart', {}),
    ('wf_disk_tests', 'journal', '', 'started', 'answer_of_start', {}),
    ('wf_disk_tests', 'journal', '', 'appended', 'answer_of_append', {}),
    ('wf_disk_tests', 'memory', '', 'half_synced', 'half_synced_disk', {}),
    ('wf_codec_tests', 'records', '', 'again', 'is_spelled_again', {}),
    ('wf_codec_tests', 'longest', '', 'longest', 'longest_spelling', {}),
    ('wf_codec_tests', 'updates', '', 'one', 'list_of_one', {}),
    ('wf_copies', 'types', '', 'one', 'list_of_one', {}),
    ('wf_part_tests', 'told', '', 'told', 'told_lines', {'where': 'crate'}),
]

# words of specs/ that have the name of a function above, so that rule, definition and function keep one name: crate, module, old, new
WORDS = [
    ('wf_phrase', 'Literals', 'negated', 'negative_number'),
    ('wf_check', 'Naming', 'misnamed', 'name_fault_of'),
    ('wf_check', 'Rooted', 'unfit', 'kind_fault'),
    ('wf_scripts', 'Outers', 'completed', 'completion'),
    ('wf_scripts', 'Values', 'single', 'single_value'),
    ('wf_scripts', 'Values', 'negated', 'negative_int'),
    ('wf_play', 'Lines', 'positive', 'positive_count'),
    ('wf_play', 'Lines', 'sending', 'send_line'),
    ('wf_play', 'Lines', 'crashing', 'crash_line'),
    ('wf_play', 'Lines', 'admitting', 'admit_line'),
    ('wf_play', 'Lines', 'arming', 'arm_line'),
]

# lemmas that are named after these words, each in one file: file, old, new
LEMMAS = [
    ('crates/wf_top/proofs/Fits.antt', 'positive_is', 'positive_count_is'),
    ('crates/wf_top/proofs/Fits.antt', 'completed_fits', 'completion_fits'),
    ('crates/wf_top/proofs/Fits.antt', 'sending_fits', 'send_line_fits'),
    ('crates/wf_top/proofs/Fits.antt', 'crashing_fits', 'crash_line_fits'),
    ('crates/wf_top/proofs/Fits.antt', 'admitting_fits', 'admit_line_fits'),
    ('crates/wf_top/proofs/Fits.antt', 'arming_fits', 'arm_line_fits'),
    ('crates/wf_grammar/proofs/Declared.antt', 'negated_reads', 'negative_number_reads'),
    ('crates/wf_check/proofs/Memory.antt', 'unfit_rule', 'kind_fault_rule'),
]

# text in documents: (file, old, new), once each
DOCS = [
    ('docs/PROMISES.md', '`View::inside`', '`View::states_inside`'),
    ('docs/PROMISES.md', '`there_now`', '`events_there_now`'),
    ('docs/PROMISES.md', '`unclosed_now`', '`open_counts_now`'),
    ('docs/PROMISES.md', '`done_now`', '`done_acts_now`'),
    ('docs/PROMISES.md', '`AllItems::open_then`, `done_in`', '`AllItems::open_counts_then`, `done_bits`'),
]

ROOT = sys.argv[1]
DRY = '--dry' in sys.argv
ONLY = None
if '--crates' in sys.argv:
    ONLY = set(sys.argv[sys.argv.index('--crates') + 1].split(','))

def path(*parts):
    return os.path.join(ROOT, *parts)

def read(p):
    with open(p, encoding='utf-8') as f:
        return f.read()

def write(p, text):
    if not DRY:
        with open(p, 'w', encoding='utf-8') as f:
            f.write(text)

def files(top, ending):
    out = []
    for d, _, names in os.walk(top):
        if os.sep + 'out' + os.sep in d + os.sep:
            continue
        out += [os.path.join(d, n) for n in names if n.endswith(ending)]
    return sorted(out)

def blocks(text):
    """Lines with the functions that they stand in: a list of (name, type) or None, by line."""
    here, kind, out = None, '', []
    for line in text.split('\n'):
        m = re.match(r'(?:unsafe )?impl\b.*', line)
        if m:
            head = re.sub(r"<[^<>]*>", '', re.sub(r"<[^<>]*>", '', line))
            m2 = re.match(r'impl\s+(?:[\w:]+\s+for\s+)?(\w+)', head)
            kind = m2.group(1) if m2 else '?'
        m = re.match(r'(?:pub )?trait (\w+)', line)
        if m:
            kind = m.group(1)
        if line.startswith('}'):
            out.append((here, kind))
            here, kind = None, ''
            continue
        m = re.match(r'\s*(?:pub(?:\([a-z]+\))? )?(?:const )?(?:unsafe )?fn (\w+)', line)
        if m:
            here = m.group(1)
        out.append((here, kind))
    return out

def is_code(line):
    s = line.strip()
    return not (s.startswith('//') or s.startswith('ghost use') or s.startswith('requires') or s.startswith('ensures'))

said = []
def say(*words):
    print(*words)

def definition(crate, file, kind, old, new):
    """The file of a function, looked for in its crate if it moved."""
    found, done = [], False
    for p in files(path('crates', crate, 'src'), '.rt') if os.path.isdir(path('crates', crate)) else []:
        text = read(p)
        name = os.path.relpath(p, path('crates', crate, 'src'))[:-3]
        wh = blocks(text)
        here = [i for i, l in enumerate(text.split('\n')) if re.search(rf'\bfn {old}\b', l) and not l.lstrip().startswith('//') and wh[i][1] == kind]
        done = done or bool(re.search(rf'\bfn {new}\b', text))
        found += [(p, name, i, text) for i in here]
    if len(found) > 1:
        found = [f for f in found if f[1] == file]
    if len(found) != 1:
        say(f'{crate} {file} {old}: ' + ('renamed already' if done else f'{len(found)} definitions, PASSED OVER'))
        return None, None, None, None
    if found[0][1] != file:
        say(f'{crate} {old}: it is in {found[0][1]}.rt now')
    return found[0][0], found[0][1], [found[0][2]], found[0][3]

def rename_row(row):
    crate, file, kind, old, new, opt = row
    src, file, define, text = definition(crate, file, kind, old, new)
    if define is None:
        return
    if re.search(rf'\bfn {new}\b', text):
        say(f'{crate} {file}: {new} is there already, PASSED OVER'); return
    scope = opt.get('where', 'file')
    if scope == 'file':
        places = [src]
    else:
        places = []
        for c in ([crate] if scope == 'crate' else sorted(os.listdir(path('crates'))) if scope == 'all' else scope):
            if os.path.isdir(path('crates', c)):
                places += files(path('crates', c, 'src'), '.rt')
    method = kind != ''
    if method:
        call = re.compile(rf'(?<!\w)(?<![^.]\.)({opt["recv"]}(?:\s*)\.)' + rf'{old}(?=\(|::<)')
        by_type = re.compile(rf'(?<![\w:])({kind}::){old}(?=\(|::<)')
        by_self = re.compile(rf'(?<![\w:])(Self::){old}(?=\(|::<)')
        over_lines = re.compile(rf'({opt["recv"]}\s*\n\s*\.){old}(?=\()')
    else:
        call = re.compile(rf'(?<!\w)(?<![^.]\.)(?<!::)()' + rf'{old}(?=\(|::<)')
    callers = []       # (file, function, type)
    changed_files = set()
    module = file.split('/')[-1]
    for p in places:
        t = read(p)
        ls = t.split('\n')
        own = p == src
        # a free function is meant only in its own file, or where it is imported or written with its module
        imported = own or method
        use = re.compile(rf'^\s*(?:pub )?use [^;]*\b(?:{module}|{crate})::(?:\{{[^}}]*\b{old}\b[^}}]*\}}|{old}\b)[^;]*;', re.M | re.S)
        m = use.search(t)
        if not method and not own and m and not m.group(0).strip().startswith('ghost'):
            imported = True
        qual = opt.get('qual')
        wh = blocks(t)
        changed = False
        for i, l in enumerate(ls):
            if not is_code(l):
                continue
            if own and i == define[0]:
                ls[i] = re.sub(rf'\bfn {old}\b', f'fn {new}', l); changed = True
                continue
            n = l
            if imported and not re.search(rf'\bfn {old}\b', l):
                # `self` is meant only in the type's own methods
                n = call.sub(lambda k: k.group(0) if method and k.group(1) == 'self.' and wh[i][1] != kind else k.group(1) + new, n)
                if method:
                    n = by_type.sub(lambda k: k.group(1) + new, n)
                    if wh[i][1] == kind:
                        n = by_self.sub(lambda k: k.group(1) + new, n)
            if qual:
                n = re.sub(rf'(?<![\w.])({qual}::){old}(?=\(|::<)', rf'\g<1>{new}', n)
            if n != l:
                ls[i] = n; changed = True
                callers.append((p, wh[i][0], wh[i][1]))
        t2 = '\n'.join(ls)
        if not method and not own and imported:
            def in_use(k):
                return re.sub(rf'\b{old}\b(?!::)', new, k.group(0)) if not k.group(0).strip().startswith('ghost') else k.group(0)
            t3 = use.sub(in_use, t2)
            changed = changed or t3 != t2
            t2 = t3
        # `.OLD` on a line of its own below its receiver
        if method:
            for k in over_lines.finditer(t2):
                i = t2[:k.end()].count('\n')
                callers.append((p, wh[i][0], wh[i][1]))
            t3 = over_lines.sub(lambda k: k.group(1) + new, t2)
            changed = changed or t3 != t2
            t2 = t3
        if changed:
            write(p, t2); changed_files.add(p)
    # the folder of the function
    base = path('crates', crate, 'proofs', *file.split('/')) if file not in ('lib', 'main') else path('crates', crate, 'proofs')
    folders = []
    for d, names, _ in os.walk(base):
        for n in names:
            if n == old:
                rel = os.path.relpath(os.path.join(d, n), base).split(os.sep)
                if (not method and len(rel) == 1) or (method and len(rel) == 2 and rel[0].split('+')[0].split('-')[0] == kind):
                    folders.append(os.path.join(d, n))
    # inner modules hand a file's functions to the folder of the type: proofs/node/Node/made for src/node/letters.rt
    if method and not folders:
        up = base
        while os.path.basename(up) != 'proofs':
            up = os.path.dirname(up)
            d = os.path.join(up, kind, old)
            if os.path.isdir(d):
                folders.append(d)
    for d in folders:
        rel = os.path.relpath(d, path('crates', crate, 'proofs')).replace(os.sep, '.')
        was = f'Rattle.{crate}.proofs.{rel}.'
        now = f'Rattle.{crate}.proofs.{rel[:-len(old)]}{new}.'
        hits = 0
        for c in os.listdir(path('crates')):
            for p in files(path('crates', c), '.antt') + files(path('crates', c, 'src'), '.rt'):
                t = read(p)
                if was in t:
                    write(p, t.replace(was, now)); hits += 1
        to = d[:-len(old)] + new
        if not DRY:
            subprocess.run(['git', 'mv', os.path.relpath(d, ROOT), os.path.relpath(to, ROOT)], cwd=ROOT, check=True)
        say(f'   folder {os.path.relpath(d, ROOT)}: {hits} files name it')
    # steps and goals in the proofs of the callers
    seen = set()
    for p, fn, ty in callers:
        if fn is None:
            continue
        c = os.path.relpath(p, path('crates')).split(os.sep)[0]
        rel = os.path.relpath(p, path('crates', c, 'src'))[:-3].split(os.sep)
        body = function_text(read(p), fn, ty)
        has_var = bool(re.search(rf'(?:\blet (?:mut )?|\bfor |[(,|] *(?:mut )?){old}\b(?! *\()(?: *[:=,)|]| in )', body))
        for d in proof_folders(c, rel, fn, ty, new, old):
            if d in seen:
                continue
            seen.add(d)
            for a in files(d, '.antt'):
                t = read(a)
                t2, hits, doubts = rename_steps(t, old, new, has_var)
                if hits:
                    write(a, t2)
                    say(f'   {os.path.relpath(a, ROOT)}: {", ".join(hits)}')
                if doubts:
                    say(f'   {os.path.relpath(a, ROOT)}: LEFT {", ".join(doubts)}')
    # edits
    for c in os.listdir(path('crates')):
        for e in files(path('crates', c, 'must-fail'), '.edit'):
            t = read(e)
            out, at = [], None
            for l in t.split('\n'):
                m = re.match(r'file: *(\S+)', l)
                if m:
                    at = path('crates', c, m.group(1))
                if (at in changed_files or method and at in places) and re.match(r'(old|new):', l):
                    n = l
                    if re.search(rf'\bfn {old}\b', l) and at == src:
                        n = re.sub(rf'\bfn {old}\b', f'fn {new}', l)
                    else:
                        n = call.sub(lambda k: k.group(1) + new, l)
                        if opt.get('qual'):
                            n = re.sub(rf'(?<![\w.])({opt["qual"]}::){old}(?=\(|::<)', rf'\g<1>{new}', n)
                    if n != l:
                        say(f'   {os.path.relpath(e, ROOT)}: {n}')
                    l = n
                out.append(l)
            if '\n'.join(out) != t:
                write(e, '\n'.join(out))
    sites = sorted({f'{os.path.relpath(p, path("crates"))}:{fn}' for p, fn, _ in callers})
    say(f'{crate} {file} {old} -> {new}: {len(callers)} calls in {" ".join(sites)}')

def function_text(text, fn, ty):
    out = []
    for line, (name, kind) in zip(text.split('\n'), blocks(text)):
        if name == fn and kind == ty:
            out.append(line)
    return '\n'.join(out)

def proof_folders(crate, rel, fn, ty, new, old):
    proofs = path('crates', crate, 'proofs')
    top = os.path.join(proofs, *rel) if rel[-1] not in ('lib', 'main') else proofs
    out = []
    while True:
        if ty == '':
            d = [os.path.join(top, fn)]
        else:
            d = []
            if os.path.isdir(top):
                d = [os.path.join(top, n, fn) for n in os.listdir(top) if n.split('+')[0].split('-')[0] == ty]
        out += [x for x in d if os.path.isdir(x)]
        if out or top == proofs or ty == '':
            return out
        top = os.path.dirname(top)

TOKEN = re.compile(r"[A-Za-z_][\w'\-+]*(?:\.[\w'\-+]+)*")
NOT_AFTER = re.compile(r'^(?:clause|loop|overflow_\w+|nonzero_\w+|bounds|slice_bounds|offset_bounds|invariant_of|invariant|index)$')
FIELDS = {'result', 'ensures', 'new', 'requires', 'branch', 'is', 'was', 'value', 'utf8'}

def rename_steps(text, old, new, has_var):
    hits, doubts = [], []
    def one_comp(comp, bare):
        parts = re.split(r'([-+])', comp)
        names = parts[0::2]
        if old not in names:
            return comp
        if len(names) == 1 and bare:
            return comp
        out = parts[:]
        for i, n in enumerate(names):
            if n != old:
                continue
            before = names[i - 1] if i else ''
            after = names[i + 1] if i + 1 < len(names) else ''
            if NOT_AFTER.match(before) or after == 'is':
                continue
            if has_var and i > 0:
                doubts.append(comp)
                continue
            out[2 * i] = new
        return ''.join(out)
    def token(m):
        whole = m.group(0)
        comps = whole.split('.')
        if comps[0] in ('Rattle', 'spec'):
            return whole
        if len(comps) == 1:
            n = one_comp(comps[0], True)
        else:
            if '-' not in comps[1] and comps[1] == old and (len(comps) < 3 or comps[2] not in FIELDS):
                return whole
            if comps[0] not in ('c', 'w', 'goal', 'v', 'b', 'a', 'x', 'h', 'o') and '-' not in comps[1]:
                return whole
            n = '.'.join([comps[0], one_comp(comps[1], False)] + comps[2:])
        if n != whole:
            hits.append(f'{whole} -> {n}' if len(hits) < 400 else whole)
        return n
    out = []
    for line in text.split('\n'):
        if line.lstrip().startswith('--'):
            out.append(line)
        else:
            out.append(TOKEN.sub(token, line))
    return '\n'.join(out), sorted(set(hits)), sorted(set(doubts))

WORD = r"(?<![\w.'\-]){}(?![\w'\-])"

def clause_parts(line):
    """A line of .rt: what stands before the first brace of a clause, and the rest of it."""
    m = re.match(r"(\s*(?:requires|ensures)\b[^{]*)(.*)$", line, re.S)
    return (m.group(1), m.group(2)) if m else None

def rename_word(crate, module, old, new):
    home = path('crates', crate, 'specs', *module.split('.')) + '.antt'
    if not os.path.isfile(home) or not re.search(rf"^(?:(?:abbrev|unfoldable|pub) )*{old} ", read(home), re.M):
        say(f'{crate} {module} {old}: no such word, PASSED OVER')
        return
    if re.search(rf"^(?:(?:abbrev|unfoldable|pub) )*{new} ", read(home), re.M):
        say(f'{crate} {module}: {new} is there already, PASSED OVER')
        return
    full = f'Rattle.{crate}.specs.{module}'
    bare = re.compile(WORD.format(old))
    for c in sorted(os.listdir(path('crates'))):
        for p in files(path('crates', c), '.antt') + files(path('crates', c, 'src'), '.rt'):
            t = read(p)
            rust = p.endswith('.rt')
            t2 = t
            aliases = re.findall(rf'use {re.escape(full)} as (\w+)', t)
            for alias in aliases:
                t2 = re.sub(rf"(?<![\w.])({alias}\.){old}(?![\w'\-])", rf'\g<1>{new}', t2)
            t2 = t2.replace(f'{full}.{old}.', f'{full}.{new}.')
            inner = f"{'crate' if False else '(?:crate|' + crate + ')'}::specs::{module.replace('.', '::')}::"
            t2 = re.sub(rf"({inner}){old}(?!\w)", rf'\g<1>{new}', t2) if (c == crate or crate + '::specs' in t2) else t2
            use = re.compile(rf'(use {re.escape(full)}\.\{{)([^}}]*)(\}})')
            m = use.search(t2)
            imported = bool(m and bare.search(m.group(2)))
            if imported:
                t2 = use.sub(lambda k: k.group(1) + bare.sub(new, k.group(2)) + k.group(3), t2)
            if imported or p == home:
                out = []
                for line in t2.split('\n'):
                    s = line.lstrip()
                    if s.startswith(('--', '//', 'use ', 'ghost use ')):
                        if not s.startswith(('use ', 'ghost use ')) and bare.search(line):
                            say(f'   {os.path.relpath(p, ROOT)}: COMMENT {s}')
                        out.append(line)
                    elif rust:
                        parts = clause_parts(line)
                        if parts:
                            out.append(parts[0] + bare.sub(new, parts[1]))
                        elif s.startswith('ghost'):
                            out.append(bare.sub(new, line))
                        else:
                            out.append(line)
                    else:
                        out.append(bare.sub(new, line))
                t2 = '\n'.join(out)
            if t2 != t:
                write(p, t2)
                say(f'   {os.path.relpath(p, ROOT)}: {sum(1 for a, b in zip(t.split(chr(10)), t2.split(chr(10))) if a != b)} lines')
    say(f'{crate} {module} {old} -> {new}')

for row in TABLE:
    if ONLY is None or row[0] in ONLY:
        rename_row(row)
for word in WORDS:
    if ONLY is None or word[0] in ONLY:
        rename_word(*word)
for file, old, new in LEMMAS:
    if (ONLY is None or file.split('/')[1] in ONLY) and os.path.isfile(path(file)):
        t = read(path(file))
        t2 = re.sub(WORD.format(old), new, t)
        say(f'{file}: {old} -> {new}' if t2 != t else f'{file}: {old} is not there, PASSED OVER')
        write(path(file), t2)
if ONLY is None:
    for file, old, new in DOCS:
        t = read(path(file))
        if t.count(old) == 1:
            write(path(file), t.replace(old, new)); say(f'{file}: {old} -> {new}')
        else:
            say(f'{file}: {old} stands {t.count(old)} times, PASSED OVER')
