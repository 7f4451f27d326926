"""Random lines for script_chain, which fit what the arenas of a section hold."""
PLAIN = '''
    show len is_empty capacity max_capacity slots generation singular_generation next_ptr
    ptrs vals iter iter_link_no_gen walk find_first_inx_ptr find_last_inx_ptr
    inc_generation make_room
'''.split()
AT_POINTER = 'get contains at get_link get_link_no_gen break_next break_prev'.split()
AT_POINTER += ['iter_chain', 'walk_chain'] * 4
REMOVE = ['remove', 'remove_link_no_gen', 'invalidate']
AT_INDEX = '''
    get_inx get_inx_unwrap get_inx_link_no_gen walk_from walk_back_from
    remove_inx remove_inx_link_no_gen
'''.split()
AT_TWO = ['are_neighbors', 'connect', 'connect', 'exchange_next', 'exchange_next', 'exchange_next']
AT_TWO += ['move_next_to', 'move_prev_to']
FORMS = '''
    insert insert_reallocating insert_within_capacity
    entry_insert entry_insert_reallocating entry_insert_within_capacity meets
'''.split()
RARE = ['clear', 'compress 0', 'compress 1', 'compress_with 0', 'compress_with 1']
RARE += '''
    walk_and_remove walk_chain_and_remove walk_chain_and_break drain drain_chain
    set_generation reallocate_min_capacity
    insert_in_gap_reallocating insert_in_gap_within_capacity
'''.split()


class Writer:
    """Writes random lines that fit what the arenas hold."""

    def __init__(self, r, section, kinds):
        self.r, self.s, self.kinds = r, section, kinds
        self.top = r.choice([4, 7, 20])

    def index(self, m):
        if m.entries and self.r.random() < 0.9:
            return self.r.choice(sorted(m.entries))
        return self.r.randrange(1, self.top + 2)

    def pointer(self, m):
        i = self.index(m)
        g = m.entries[i][0] if i in m.entries and self.r.random() < 0.95 else self.r.randrange(1, 9)
        return f'{i} {min(g, m.last or g)}'

    def neighbor(self, m, i):
        """Mostly the next of an index."""
        next = m.next(i) if i in m.entries else None
        return next if next and self.r.random() < 0.7 else self.index(m)

    def end(self, m, by_start):
        ends = [own[0 if by_start else -1] for is_ring, own in m.lists if not is_ring]
        return self.r.choice(ends) if ends and self.r.random() < 0.7 else self.index(m)

    def whole(self, m, i):
        return f'{i} {m.entries[i][0] if i in m.entries and self.r.random() < 0.95 else 2}'

    def insertion(self, m):
        r, kind = self.r, self.r.choice(list(self.kinds))
        form, value = r.choice(FORMS), r.randrange(0 if r.random() < 0.1 else 1, 1000)
        is_at_end = kind in ('ChainEnd', 'ChainStart', 'Bridge')
        p = self.end(m, kind == 'ChainStart') if is_at_end else self.index(m)
        q = self.neighbor(m, p) if kind == 'AtInterlink' else self.end(m, True)
        named = [p, q][: self.kinds[kind]]
        if named and r.random() < 0.5:
            return ' '.join([f'{form}:{kind}Inx {value}', *map(str, named)])
        return ' '.join([f'{form}:{kind} {value}', *(self.whole(m, i) for i in named)])

    def call(self, m):
        r = self.r
        if r.random() < 0.05 and m.canonical_layout() is not None:
            return f'compress_canonical {r.randrange(2)}'
        x = r.random()
        if x < 0.35:
            return self.insertion(m)
        if x < 0.50:
            return r.choice(PLAIN)
        if x < 0.66:
            return f'{r.choice(AT_POINTER)} {self.pointer(m)}'
        if x < 0.72:
            return f'{r.choice(REMOVE)} {self.pointer(m)}'
        if x < 0.78:
            return f'{r.choice(AT_INDEX)} {self.index(m)}'
        if x < 0.92:
            p, verb = self.index(m), r.choice(AT_TWO)
            takes_next = verb == 'are_neighbors' or r.random() < 0.3
            q = self.neighbor(m, p) if takes_next else self.end(m, True)
            p = self.end(m, False) if verb == 'connect' else p
            return f'{verb} {self.whole(m, p)} {self.whole(m, q)}'
        if x < 0.94:
            return f'are_neighbors_inx {self.index(m)} {self.index(m)}'
        if x < 0.97:
            verb = r.choice(['set', 'put', 'set_inx'])
            at = self.index(m) if verb == 'set_inx' else self.pointer(m)
            return f'{verb} {at} {r.randrange(1000)}'
        return self.rare(m)

    def rare(self, m):
        r, verb = self.r, self.r.choice(RARE)
        if verb in ('walk_chain_and_remove', 'walk_chain_and_break'):
            return f'{verb} {self.pointer(m)}'
        if verb == 'drain_chain':
            return f'{verb} {self.pointer(m)} {r.randrange(4)}'
        if verb == 'set_generation':
            return f'{verb} {self.generation(m)}'
        if verb in ('drain', 'reallocate_min_capacity'):
            return f'{verb} {r.randrange(9)}'
        return f'{verb} {r.randrange(1000)}' if 'gap' in verb else verb

    def generation(self, m):
        if m.last is None or m.last < 9:
            return self.r.randrange(1, 4)
        return self.r.choice([1, 2, 250, 253, 254, 255])

    def line(self):
        r, s = self.r, self.s
        x = r.random()
        if x < 0.80:
            return f'a {self.call(s.a)}'
        if x < 0.90:
            return f'b {self.call(s.b)}'
        if x < 0.91:
            return f'a<b transfer_canonical {self.generation(s.a)}'
        if x < 0.94:
            refused = f'clone_from_with {r.randrange(1, 5)}'
            return f'a=b {r.choice(["clone", "clone_from", "clone_from_with 0", refused])}'
        if x < 0.955:
            return f'v=a clone_to_arena {r.choice([0, 0, 2])}'
        if x < 0.97:
            exchanges = ['a=l exchange_arena', 'a=l exchange_arena']
            return r.choice(exchanges + ['a=l from_arena', 'l interlinks_agree'])
        if x < 0.99:
            return self.links()
        if s.stack == 'limited' and x < 0.997:
            return f'a| set_max_capacity {r.randrange(1, 14)}'
        return 'v show'

    def links(self):
        r, l = self.r, self.s.l
        x = r.random()
        if x < 0.3:
            return f'l insert {r.randrange(1, 1000)} 0 0'
        if x < 0.4:
            return f'l insert {r.randrange(1, 1000)} {r.randrange(4)} {r.randrange(4)}'
        if x < 0.7:
            return f'l remove {self.pointer(l)}'
        return r.choice(['l clear', 'l show', 'l show'])
