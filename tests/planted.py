"""Wrong rules, for tests/rules.py: each is planted in the definition and in the code alike.

A rule has a name, the section of document 01 that it is from ('Many readings' is Q-14, 'Short event limit' Q-6), what it says in our own words, what
is planted in its place, and replacements: a file below crates/, a text that occurs in it exactly once, and what takes its
place. A new rule of document 01 or of a request gets an entry here, and docs/MAP.md names it as `tests/planted: name`.
"""

import collections

Rule = collections.namedtuple('Rule', 'name section says planted changes')
RULES = []


def rule(name, section, says, planted, *changes):
    RULES.append(Rule(name, section, says, planted, changes))


def both(crate, specs, old, new, code, code_old, code_new):
    """One replacement in a definition, one in the code."""
    return (f'{crate}/specs/{specs}.antt', old, new), (f'{crate}/src/{code}.rt', code_old, code_new)


def misplaced(rule, crates):
    """What is wrong with a rule's replacements: a text that does not occur once, no change of a definition, none of the code."""
    held, wrong = {}, []
    for file, old, new in rule.changes:
        path = crates / file
        text = held.get(file) or (path.read_text() if path.is_file() else '')
        if text.count(old) != 1:
            wrong.append(f'crates/{file} has {text.count(old)} times: {old}')
        held[file] = text.replace(old, new, 1)
    return wrong + [f'no change in {part}' for part in ('specs', 'src') if not any(f'/{part}/' in file for file, _, _ in rule.changes)]


# ---- Record

rule('kinds_3_and_4_exchanged', 'Record', 'Kind 3 is a tick and kind 4 a C write.', 'the other way round',
     *both('record', 'Record', 'tick_kind = 3', 'tick_kind = 4', 'lib', 'Tick = 3,', 'Tick = 4,'),
     ('record/src/lib.rt', '3 => Ok(Kind::Tick)', '4 => Ok(Kind::Tick)'), ('record/src/lib.rt', '4 => Ok(Kind::WriteC)', '3 => Ok(Kind::WriteC)'),
     *both('record', 'Record', 'c_write_kind = 4', 'c_write_kind = 3', 'lib', 'WriteC = 4,', 'WriteC = 3,'))
rule('c_and_d_reads_exchanged', 'Record', 'Kind 6 is a C read and kind 7 a D read.', 'the other way round',
     *both('record', 'Record', 'c_read_kind = 6', 'c_read_kind = 7', 'lib', 'ReadC = 6,', 'ReadC = 7,'),
     ('record/src/lib.rt', '6 => Ok(Kind::ReadC)', '7 => Ok(Kind::ReadC)'), ('record/src/lib.rt', '7 => Ok(Kind::ReadD)', '6 => Ok(Kind::ReadD)'),
     *both('record', 'Record', 'd_read_kind = 7', 'd_read_kind = 6', 'lib', 'ReadD = 7,', 'ReadD = 6,'))
rule('flags_3_and_4_exchanged', 'Record', 'Flag bit 3 is a missing loopback and bit 4 SQE Test.', 'the other way round',
     *both('record', 'Record', 'loopback_missing = bit (byte_in s flags) 3;', 'loopback_missing = bit (byte_in s flags) last_flag;',
           'lib', 'loopback_missing: flag(flags, 3),', 'loopback_missing: flag(flags, 4),'),
     *both('record', 'Record', 'sqe_test = bit (byte_in s flags) last_flag;', 'sqe_test = bit (byte_in s flags) 3;',
           'lib', 'sqe_test: flag(flags, 4),', 'sqe_test: flag(flags, 3),'))
rule('d_and_n_exchanged', 'Record', 'd stands in bytes 4 to 7 and n in bytes 8 to 11.', 'the other way round',
     *both('record', 'Record', 'place duration = (4, 7)', 'place duration = (8, 11)', 'lib', 'd: number32(bytes, 4),', 'd: number32(bytes, 8),'),
     *both('record', 'Record', 'place octets = (8, 11)', 'place octets = (4, 7)', 'lib', 'n: number32(bytes, 8),', 'n: number32(bytes, 4),'))
rule('c_and_x_exchanged', 'Record', 'c stands in bytes 16 to 19 and x in bytes 20 to 23.', 'the other way round',
     *both('record', 'Record', 'place collision_start = (16, 19)', 'place collision_start = (20, 23)', 'lib', 'c: number32(bytes, 16),', 'c: number32(bytes, 20),'),
     *both('record', 'Record', 'place collision_length = (20, 23)', 'place collision_length = (16, 19)', 'lib', 'x: number32(bytes, 20),', 'x: number32(bytes, 16),'))
rule('flag_bit_5_means_nothing', 'Record', 'Flag bits 5 to 7 are zero.', 'bit 5 may be one',
     *both('record', 'Record', '|| bit_above last_flag (byte_in s flags)', '|| bit_above 5 (byte_in s flags)',
           'lib', 'const FLAGS_END: u8 = 32;', 'const FLAGS_END: u8 = 64;'))
rule('byte_13_of_a_burst', 'Record', 'A burst leaves byte 13 zero.', 'it may hold anything',
     *both('record', 'Record', 'dribble ∷ collision_start ∷', 'dribble ∷ written ∷ collision_start ∷',
           'lib', 'bytes[13] | bytes[14] | bytes[15]', 'bytes[14] | bytes[15]'))
rule('dribble_in_byte_13', 'Record', 'k stands in byte 12 and the written byte in byte 13.', 'the other way round, in a burst',
     *both('record', 'Record', 'place dribble = (12, 12)', 'place dribble = (13, 13)', 'lib', 'k: bytes[12],', 'k: bytes[13],'),
     *both('record', 'Record', 'place written = (13, 13)', 'place written = (12, 12)',
           'lib', 'bytes[13] | bytes[14] | bytes[15]', 'bytes[12] | bytes[14] | bytes[15]'))
rule('source_one_byte_later', 'Record', 'The source address stands in bytes 24 to 29.', 'in bytes 25 to 30',
     *both('record', 'Record', 'place source = (24, 29)', 'place source = (25, 30)',
           'lib', 'bytes[24], bytes[25],', 'bytes[25],'),
     ('record/src/lib.rt', 'bytes[29],', 'bytes[29], bytes[30],'))

# ---- Numbers turned away with

rule('short_records_accepted', 'Numbers turned away with', '9 for any length but 32.', 'for more than 32 bytes',
     *both('record', 'Refusals', 'row 9 (not (eqb (length s) record_length))', 'row 9 (ltb record_length (length s))',
           'lib', '    let Some(bytes) = bytes.as_array() else {\n        return Record::refused(Refusal::WrongLength);\n    };\n',
           '    if Record::LENGTH < bytes.len() {\n        return Record::refused(Refusal::WrongLength);\n    }\n    let mut filled = [0u8; Record::LENGTH];\n'
           '    for (i, b) in bytes.iter().enumerate() {\n        filled[i] = *b;\n    }\n    let bytes = &filled;\n'))
rule('empty_pulses_refused', 'Numbers turned away with', 'A pulse with mask 0 is accepted.', 'it is turned away with 3',
     *both('record', 'Refusals', '|| is_pulse s && leb pulse_mask_end (number_in s mask))', '|| is_pulse s && (leb pulse_mask_end (number_in s mask) || eqb (number_in s mask) 0))',
           'lib', 'if Record::PULSE_MASK_END <= mask {', 'if (Record::PULSE_MASK_END <= mask) | (mask == 0) {'))
rule('mask_bit_9_accepted', 'Numbers turned away with', '3 for a burst whose mask has a bit above 8.', 'above 9',
     *both('record', 'Refusals', 'burst_mask_end = 2 ^ port_count', 'burst_mask_end = 2 ^ (port_count + 1)',
           'lib', 'const MASK_END: u16 = 1 << ports::COUNT;', 'const MASK_END: u16 = 1 << (ports::COUNT + 1);'))
rule('aui_pulsed', 'Numbers turned away with', '3 for a pulse whose mask has a bit above 7.', 'above 8',
     *both('record', 'Refusals', 'pulse_mask_end = 2 ^ aui', 'pulse_mask_end = 2 ^ port_count',
           'lib', 'const PULSE_MASK_END: u16 = 1 << ports::AUI;', 'const PULSE_MASK_END: u16 = 1 << ports::COUNT;'))
rule('d_of_0_accepted', 'Numbers turned away with', '2 for d 0.', 'for d 1',
     *both('record', 'Refusals', 'eqb burst.d 0', 'eqb burst.d 1', 'lib', 'self.d == 0\n', 'self.d == 1\n'))
rule('longest_by_one_less', 'Numbers turned away with', '2 for d above 1,000,000.', 'above 999,999',
     *both('record', 'Refusals', 'longest = 1000000', 'longest = 999999', 'lib', 'const LONGEST: u32 = 1_000_000;', 'const LONGEST: u32 = 999_999;'))
rule('eight_dribble_bits', 'Numbers turned away with', '2 for k above 7.', 'above 8',
     *both('record', 'Refusals', 'most_dribble = 7', 'most_dribble = 8', 'lib', 'const MOST_DRIBBLE: u8 = 7;', 'const MOST_DRIBBLE: u8 = 8;'))
rule('dribble_bits_left_out', 'Numbers turned away with', '2 where 8n + k is above d.', 'where 8n is',
     *both('record', 'Refusals', '|| ltb burst.d (8 * burst.n + burst.k)', '|| ltb burst.d (8 * burst.n)',
           'lib', 'u64::from(self.d) < 8 * u64::from(self.n) + u64::from(self.k)', 'u64::from(self.d) < 8 * u64::from(self.n)'))
rule('signal_is_no_activity', 'Numbers turned away with', '1 for an empty mask without the collision signal.', 'for every empty mask',
     *both('record', 'Refusals', 'eqb burst.mask 0 && not burst.collision_signal', 'eqb burst.mask 0',
           'lib', 'self.mask == 0 && !self.collision_signal', 'self.mask == 0'))
rule('number_3_after_2', 'Numbers turned away with', 'Of 3 and 2 the first is given.', '2 is',
     ('record/specs/Refusals.antt', '    ∷ row 2 (is_burst s && bad_numbers (burst_of s))\n', ''),
     ('record/specs/Refusals.antt', '    ∷ row 3 (', '    ∷ row 2 (is_burst s && bad_numbers (burst_of s)) ∷ row 3 ('),
     ('record/src/lib.rt', '    if Burst::MASK_END <= burst.mask {', '    if burst.bad_numbers() {\n        return Err(Refusal::BadNumbers);\n    }\n    if Burst::MASK_END <= burst.mask {'))
rule('number_2_after_1', 'Numbers turned away with', 'Of 2 and 1 the first is given.', '1 is',
     ('record/specs/Refusals.antt', '    ∷ row 1 (is_burst s && nothing_active (burst_of s))\n', ''),
     ('record/specs/Refusals.antt', '    ∷ row 2 (', '    ∷ row 1 (is_burst s && nothing_active (burst_of s)) ∷ row 2 ('),
     ('record/src/lib.rt', '    if burst.bad_numbers() {', '    if burst.nothing_active() {\n        return Err(Refusal::NothingActive);\n    }\n    if burst.bad_numbers() {'))
rule('c_writes_001', 'Numbers turned away with', '7 for a C write that begins with neither 000 nor 111.', 'neither 001 nor 111',
     *both('record', 'Refusals', 'selects_neither byte = not (eqb (byte / 2 ^ 5) 0b000', 'selects_neither byte = not (eqb (byte / 2 ^ 5) 0b001',
           'lib', 'matches!(byte >> 5, 0b000 | 0b111)', 'matches!(byte >> 5, 0b001 | 0b111)'))
rule('unlisted_command_is_6', 'Numbers turned away with', '4 for a byte that is no command.', '6',
     *both('access', 'Access', '(turned_away c h 4)', '(turned_away c h 6)', 'lib', 'Refusal::UnlistedCommand)', 'Refusal::WrongDirection)'))
rule('write_only_is_5', 'Numbers turned away with', '6 for reading what can only be written.', '5',
     ('access/specs/Access.antt', '(cond (not (selected_by h).readable) (turned_away c h 6)', '(cond (not (selected_by h).readable) (turned_away c h 5)'),
     ('access/src/lib.rt', '!row.readable {\n        Acted::turn_away(core, h, Refusal::WrongDirection)', '!row.readable {\n        Acted::turn_away(core, h, Refusal::UnlistedRegister)'))
rule('refused_read_clears', 'Numbers turned away with', 'What is turned away changes nothing.', 'a D read that is turned away with 6 clears the change bits',
     ('access/specs/Access.antt', '(cond (not (selected_by h).readable) (turned_away c h 6)',
      '(cond (not (selected_by h).readable) (turned_away (with_changes c (Rattle.std.specs.Prelude.replicate 8 0)) h 6)'),
     ('access/src/lib.rt', '!row.readable {\n        Acted::turn_away(core, h, Refusal::WrongDirection)',
      '!row.readable {\n        let mut still = core;\n        still.changes = [0; 8];\n        Acted::turn_away(still, h, Refusal::WrongDirection)'))
rule('octet_check_with_9', 'Numbers turned away with', '10 for an octet check about too many frames.', '9',
     *both('attributes', 'Octets', 'turned_away_with e = 10', 'turned_away_with e = 9', 'octets', 'NUMBER: u8 = 10', 'NUMBER: u8 = 9'))
rule('octet_check_one_frame_more', 'Numbers turned away with', '10 from 2,829,360 frames on.', 'from 2,829,361 on',
     *both('attributes', 'Octets', 'most_frames = 2829359', 'most_frames = 2829360', 'octets', 'MOST_FRAMES: u32 = 2_829_359', 'MOST_FRAMES: u32 = 2_829_360'))

# ---- Burst

rule('signal_makes_no_activity', 'Burst', 'E is the mask, and AUI by its collision signal.', 'the mask alone',
     *both('burst', 'Burst', 'in_e activity i = has activity.mask i || (activity.collision_signal && eqb i aui)', 'in_e activity i = has activity.mask i',
           'lib', 'self.mask | ports::only(ports::AUI)', 'self.mask'))
rule('disabled_ports_are_sent_to', 'Burst', 'T are the enabled ports that pass their link.', 'disabled ones too',
     *both('repeater', 'Hearing', 'transmits i p = p.enabled && (eqb i aui || p.link_pass)', 'transmits i p = eqb i aui || p.link_pass',
           'lib', 'self.ports.enabled() & (self.ports.passing() | ports::only(ports::AUI))', 'self.ports.passing() | ports::only(ports::AUI)'))
rule('failing_links_are_sent_to', 'Burst', 'T are the enabled ports that, for TP, pass their link.', 'all enabled ports',
     *both('repeater', 'Hearing', 'transmits i p = p.enabled && (eqb i aui || p.link_pass)', 'transmits i p = p.enabled',
           'lib', 'self.ports.enabled() & (self.ports.passing() | ports::only(ports::AUI))', 'self.ports.enabled()'))
rule('partitioned_ports_are_heard', 'Burst', 'L are the connected ports of T.', 'all of T',
     *both('repeater', 'Hearing', 'listens i p = transmits i p && not p.partitioned', 'listens i p = transmits i p',
           'lib', 'ports::less(self.transmitting(), self.partitioned())', 'self.transmitting()'))
rule('two_are_one', 'Burst', 'A count of one makes a single port.', 'a count of two does',
     *both('burst', 'Burst', '(cond (eqb (ones h) 1)', '(cond (eqb (ones h) 2)', 'lib', '1 => Heard::One(', '2 => Heard::One('))
rule('sets_from_after_the_burst', 'Burst', 'E, T, L and H are those from before the burst.', 'from after it',
     *both('repeater', 'Repeater', 'burst_of r activity = followed r Bus.Nothing (hearing_of r activity) activity',
           'burst_of r activity = followed r Bus.Nothing (hearing_of (followed r Bus.Nothing (hearing_of r activity) activity).repeater activity) activity',
           'lib', '        let hearing = self.hear(activity);\n', '        let first = self.hear(activity);\n        let over = self.follow(Bus::Nothing, first, activity);\n        let next = over.repeater;\n        let hearing = next.hear(activity);\n'))
rule('nobody_heard_jams', 'Burst', 'None heard: nothing goes out.', 'the word is jam',
     *both('burst', 'Burst', 'word = Nil;', 'word = Jam;', 'lib', 'word: Word::Nil,', 'word: Word::Jam,'))
rule('rate_error_is_repeated', 'Burst', 'A single heard port with a rate error: jam.', 'data',
     ('burst/specs/Burst.antt', 'word_of_one p activity = cond (signalled p activity || activity.rate_error) Jam Rep', 'word_of_one p activity = cond (signalled p activity || activity.rate_error) Jam Rep'.replace('|| activity.rate_error', '|| false')),
     ('burst/src/lib.rt', 'if self.signalled(port) || self.rate_error {', 'if self.signalled(port) {'))
rule('sent_back_to_its_port', 'Burst', 'Data and jam for a single heard port go to T without that port.', 'to all of T',
     ('burst/specs/Burst.antt', 'out = set_of (λ i. has hearing.t i && not (eqb i p));', 'out = set_of (λ i. has hearing.t i);'),
     ('burst/src/lib.rt', 'out: ports::less(hearing.t, ports::only(port)),', 'out: hearing.t,'))
rule('collides_outside_t', 'Burst', 'Two or more heard: the active ports of T collide.', 'all active ports',
     ('burst/specs/Burst.antt', 'collided = set_of (λ i. has hearing.e i && has hearing.t i);', 'collided = set_of (λ i. has hearing.e i);'),
     ('burst/src/lib.rt', 'collided: hearing.e & hearing.t,', 'collided: hearing.e,'))
rule('single_port_collides', 'Burst', 'One heard without collision: the active ports of T but that one collide.', 'that one too',
     ('burst/specs/Burst.antt', '(signalled p activity || not (eqb i p)));', '(signalled p activity || true));'),
     ('burst/src/lib.rt', 'ports::less(both, ports::only(port))\n', 'both\n'))
rule('aui_collides_outside_t', 'Burst', 'None heard: AUI collides by its signal if it is in T.', 'in T or not',
     ('burst/specs/Burst.antt', 'eqb i aui && has hearing.t i);', 'eqb i aui);'),
     ('burst/src/lib.rt', 'ports::only(ports::AUI) & hearing.t', 'ports::only(ports::AUI)'))
rule('rate_error_is_a_collision', 'Burst', 'A rate error alone is no collision.', 'it is one',
     ('burst/specs/Burst.antt', 'collision = signalled p activity;', 'collision = signalled p activity || activity.rate_error;'),
     ('burst/src/lib.rt', 'collision: self.signalled(port),', 'collision: self.signalled(port) || self.rate_error,'))
rule('signal_is_a_transmit_collision', 'Burst', 'Transmit Collisions counts bursts with two or more heard.', "AUI's signal too",
     ('burst/specs/Burst.antt', 'collision = signalled p activity;\n  transmit_collision = false;', 'collision = signalled p activity;\n  transmit_collision = signalled p activity;'),
     ('burst/src/lib.rt', 'collision: self.signalled(port),\n            transmit_collision: false,', 'collision: self.signalled(port),\n            transmit_collision: self.signalled(port),'))
rule('transmit_collisions_by_two', 'Burst', 'Transmit Collisions goes up by one.', 'by two',
     ('chip/specs/Chip.antt', 'one b = cond b 1 0', 'one b = cond b 2 0'),
     ('chip/src/lib.rt', 'u32::from(transmit_collision)', 'if transmit_collision { 2 } else { 0 }'))

# ---- Burst: credits

rule('very_long_for_a_single_port', 'Burst', 'Very Long Events for each heard port.', 'for a single heard port without collision',
     ('attributes/specs/Credits.antt', '(one (share.heard && nat_lt jabber_above burst.d))', '(one (share.single && nat_lt jabber_above burst.d))'),
     ('attributes/src/lib.rt', 'self.bump(due.heard, Attributes::VERY_LONG_EVENTS, 1);', 'self.bump(own, Attributes::VERY_LONG_EVENTS, 1);'))
rule('late_at_512', 'Burst', 'Late Events where c is above 512.', 'above 511',
     *both('attributes', 'Credits', 'late_above = 512', 'late_above = 511', 'lib', 'pub const LATE_ABOVE: u32 = 512;', 'pub const LATE_ABOVE: u32 = 511;'))
rule('late_without_a_collision', 'Burst', 'Late Events come with Collisions.', 'with every heard port',
     *both('attributes', 'Credits', '(one (share.collision && nat_lt late_above burst.c))', '(one (share.heard && nat_lt late_above burst.c))',
           'lib', '            if Attributes::LATE_ABOVE < burst.c {\n                self.bump(due.heard, Attributes::LATE_EVENTS, 1);\n            }\n        }\n', '        }\n        if Attributes::LATE_ABOVE < burst.c {\n            self.bump(due.heard, Attributes::LATE_EVENTS, 1);\n        }\n'))
rule('collisions_for_a_single_port', 'Burst', 'Collisions for each heard port of a collision.', 'for every heard port',
     *both('attributes', 'Credits', '(one share.collision)', '(one share.heard)', 'lib', '        if due.collision {\n            self.bump(due.heard, Attributes::COLLISIONS, 1);\n', '        self.bump(due.heard, Attributes::COLLISIONS, 1);\n        if due.collision {\n'))
rule('short_at_78', 'Burst', 'Short Events below 78, where nothing else is chosen.', 'below 79',
     *both('attributes', 'Credits', 'short_below = 78', 'short_below = 79', 'lib', 'pub const SHORT_BELOW: u32 = 78;', 'pub const SHORT_BELOW: u32 = 79;'))
rule('runts_of_64', 'Burst', 'Runts below 64 octets.', 'below 65',
     *both('attributes', 'Credits', 'shortest = 64', 'shortest = 65', 'lib', 'pub const SHORTEST: u32 = 64;', 'pub const SHORTEST: u32 = 65;'))
rule('too_long_at_1518', 'Burst', 'Frames Too Long above 1518 octets.', 'above 1517',
     *both('attributes', 'Credits', 'longest = 1518', 'longest = 1517', 'lib', 'pub const LONGEST: u32 = 1518;', 'pub const LONGEST: u32 = 1517;'))
rule('alignment_without_dribble', 'Burst', 'A bad FCS is an alignment error with dribble bits, else an FCS error.', 'the other way round',
     *both('attributes', 'Credits', '(cond (nat_lt 0 burst.k) alignment_errors fcs_errors)', '(cond (nat_lt 0 burst.k) fcs_errors alignment_errors)',
           'lib', '        Attributes::ALIGNMENT_ERRORS\n    } else if burst.fcs_bad {\n        Attributes::FCS_ERRORS\n', '        Attributes::FCS_ERRORS\n    } else if burst.fcs_bad {\n        Attributes::ALIGNMENT_ERRORS\n'))
rule('too_long_before_short', 'Burst', 'The classes are asked in their order.', 'a short event with few octets is a runt',
     ('attributes/specs/Credits.antt', 'cond (nat_lt burst.d limit) short_events', 'cond (nat_lt burst.n shortest) runts'),
     ('attributes/specs/Credits.antt', '(cond (nat_lt burst.n shortest) runts\n', '(cond (nat_lt burst.d limit) short_events\n'),
     ('attributes/src/lib.rt', '    if burst.d < limit {\n        Attributes::SHORT_EVENTS\n    } else if burst.n < Attributes::SHORTEST {\n        Attributes::RUNTS\n',
      '    if burst.n < Attributes::SHORTEST {\n        Attributes::RUNTS\n    } else if burst.d < limit {\n        Attributes::SHORT_EVENTS\n'))
rule('octets_plus_one', 'Burst', "A readable frame adds n to its port's octets.", 'n + 1',
     *both('attributes', 'Credits', '(cond (in_class share readable_frames) burst.n 0)', '(cond (in_class share readable_frames) (burst.n + 1) 0)',
           'lib', 'Attributes::READABLE_OCTETS, burst.n);', 'Attributes::READABLE_OCTETS, burst.n.wrapping_add(1));'))
rule('total_octets_of_every_burst', 'Burst', 'Total Octets gets the octets of readable frames.', 'of every burst',
     *both('attributes', 'Credits', 'octets = cond (framed single class) burst.n 0;', 'octets = burst.n;',
           'lib', 'let octets = if frame { burst.n } else { 0 };', 'let octets = burst.n;'))
rule('total_octets_still', 'Burst', 'Total Octets gets the octets of readable frames.', 'none',
     *both('chip', 'Chip', 'total_octets = added c.kept.total_octets octets', 'total_octets = added c.kept.total_octets 0',
           'lib', 'kept.total_octets.wrapping_add(octets)', 'kept.total_octets.wrapping_add(0)'))
rule('address_of_every_class', 'Burst', "A readable frame's address stays as the last.", "every single burst's does",
     *both('attributes', 'Credits', 'address = cond (in_class share readable_frames) source port.address', 'address = cond share.single source port.address',
           'lib', 'if self.class == Attributes::READABLE_FRAMES', 'if self.class < Attributes::COUNT'))
rule('every_frame_is_a_change', 'Burst', 'Source Address Changes counts addresses that differ from the last.', 'every readable frame',
     *both('attributes', 'Credits', 'cond (frame && not (same_address source (address_of nine single)))', 'cond frame',
           'lib', ' && source != self.address(single)', ''))
rule('five_bytes_compared', 'Burst', 'Two addresses differ if any of their six bytes does.', 'any of the first five',
     ('attributes/specs/Credits.antt', '    && slice_index s 4 == slice_index a 4\n    && slice_index s 5 == slice_index a 5', '    && slice_index s 4 == slice_index a 4'),
     ('attributes/src/lib.rt', 'source != self.address(single)', 'source[..5] != self.address(single)[..5]'))
rule('jabber_at_65536', 'Burst', 'Very Long Events, and M, above 65,536.', 'above 65,535',
     *both('burst', 'Marks', 'jabber_above = 65536', 'jabber_above = 65535', 'lib', 'pub const JABBER_ABOVE: u32 = 65536;', 'pub const JABBER_ABOVE: u32 = 65535;'))
rule('mismatch_at_552', 'Burst', 'Data Rate Mismatches above 552.', 'above 551',
     *both('attributes', 'Credits', 'mismatch_above = 552', 'mismatch_above = 551', 'lib', 'pub const MISMATCH_ABOVE: u32 = 552;', 'pub const MISMATCH_ABOVE: u32 = 551;'))
rule('mismatch_of_all_heard', 'Burst', 'Data Rate Mismatches for a single heard port without collision.', 'for every heard port',
     *both('attributes', 'Credits', '(one (share.single && burst.rate_error', '(one (share.heard && burst.rate_error',
           'lib', 'self.bump(own, Attributes::RATE_MISMATCHES, 1);', 'self.bump(due.heard, Attributes::RATE_MISMATCHES, 1);'))
rule('auto_partitions_of_heard_ports', 'Partition', 'Auto Partitions for each port that is partitioned.', 'if it was heard',
     *both('attributes', 'Credits', '(one share.cut)', '(one (share.cut && share.heard))', 'lib', 'self.bump(due.cut, Attributes::AUTO_PARTITIONS, 1);', 'self.bump(due.cut & due.heard, Attributes::AUTO_PARTITIONS, 1);'))
rule('reconnecting_credited', 'Partition', 'Auto Partitions when a port becomes partitioned.', 'when it is connected again',
     *both('himib', 'Bursts', 'cut = without (partitioned_of t.repeater) (partitioned_of c.repeater);', 'cut = without (partitioned_of c.repeater) (partitioned_of t.repeater);',
           'lib', 'cut: ports::less(after, before),', 'cut: ports::less(before, after),'))

# ---- Partition

rule('partitions_at_31', 'Partition', 'The 32nd collision partitions.', 'the 31st',
     ('history/specs/History.antt', 'partitions_at = 32', 'partitions_at = 31'),
     ('port/src/lib.rt', 'pub const PARTITIONS_AT: u8 = 32;', 'pub const PARTITIONS_AT: u8 = 31;'))
rule('long_at_1024', 'Partition', 'A collision longer than 1024 partitions.', 'longer than 1023',
     ('history/specs/History.antt', 'long_above = 1024', 'long_above = 1023'),
     ('port/src/lib.rt', 'pub const LONG_ABOVE: u32 = 1024;', 'pub const LONG_ABOVE: u32 = 1023;'))
rule('jam_is_clean', 'Partition', 'A burst is clean where its word is not jam.', 'jam is clean too',
     *both('burst', 'Clean', 'is_jam Jam = true', 'is_jam Jam = false', 'lib', 'if self.word == Word::Jam {', 'if false {'))
rule('collided_is_clean', 'Partition', 'A burst is not clean for a port that collided.', 'it is',
     *both('burst', 'Clean', '&& not (has effect.collided i) && (has', '&& (has',
           'lib', 'ports::less(hearing.e | self.data(), self.collided)', 'hearing.e | self.data()'))
rule('clean_by_activity_alone', 'Partition', 'A burst is clean for a port that was active or was sent data.', 'that was active',
     *both('burst', 'Clean', '(has hearing.e i || data_to effect i)', 'has hearing.e i',
           'lib', 'ports::less(hearing.e | self.data(), self.collided)', 'ports::less(hearing.e, self.collided)'))
rule('clean_keeps_the_count', 'Partition, Q-2', 'A clean burst above 512 makes the count 0.', 'it stays',
     ('port/specs/Partition.antt', '(cond meeting.clean (with_count p 0) p))', 'p)'),
     ('port/src/lib.rt', '        if meeting.clean {\n            return Self { count: 0, ..self };\n        }\n', ''))
rule('lasting_at_512', 'Partition, Q-2', 'A clean burst above 512 zeroes the count, or reconnects.', 'above 511',
     *both('burst', 'Clean', 'lasting_above = 512', 'lasting_above = 511', 'lib', 'if Port::LASTING_ABOVE < activity.d {', 'if 511 < activity.d {'))
rule('fragment_lasts', 'Partition, Q-2', 'A clean burst of 512 or less leaves the count, and reconnects nobody.', 'one of any length does what a long one does',
     *both('burst', 'Clean', 'lasting_above = 512', 'lasting_above = 0', 'lib', 'if Port::LASTING_ABOVE < activity.d {', 'if 0 < activity.d {'))
rule('only_data_sent_zeroes', 'Partition, Q-2', "By the alternate algorithm too a port's own activity zeroes its count.", 'only data that is sent to it does',
     *both('repeater', 'Hearing', 'clean = has lasting i; reconnecting', 'clean = reconnecting_at effect lasting alternate i; reconnecting', 'lib', 'clean: lasting,', 'clean: back,'),
     ('repeater/proofs/MeetingLaws.antt', 'clean = lasting; back = back;', 'clean = back; back = back;'),
     ('repeater/proofs/Events.antt', 'apart = λ h. set_false (lasting_at hearing effect activity) i (collided_lasts_not hearing effect activity i h);',
      'apart = λ h. rw (set_false (lasting_at hearing effect activity) i (collided_lasts_not hearing effect activity i h));'),
     ('repeater/proofs/Events.antt', 'long = λ h. and_first _ _ h;', 'long = λ h. h;'))
rule('alternate_as_standard', 'Partition', 'By the alternate algorithm only data sent to the port reconnects it.', 'its own activity does too',
     ('burst/specs/Clean.antt', '(not alternate || data_to effect i)', '(true || data_to effect i)'),
     ('burst/src/lib.rt', 'lasting & self.data()', 'lasting'),
     ('burst/proofs/CleanLaws.antt', 'lasting < 65536 → alternate ≡ false', 'lasting < 65536 → lasting ≡ lasting'),
     ('burst/proofs/CleanLaws.antt', 'lasting l (λ i. simp (e, and-true))', 'lasting l (λ i. simp and-true)'))
rule('algorithms_exchanged', 'Partition', "AUI goes by its own algorithm, the TP ports by theirs.", 'the other way round',
     *both('repeater', 'Repeater', 'alternate_for for_aui for_tp i = cond (eqb i aui) for_aui for_tp', 'alternate_for for_aui for_tp i = cond (eqb i aui) for_tp for_aui',
           'lib', 'algorithms(back_aui, back_tp);', 'algorithms(back_tp, back_aui);'))
rule('ports_outside_t_counted', 'Partition', 'A port outside T keeps state and count.', 'every port takes the step',
     *both('repeater', 'Repeater', 'partitioned_at t meeting i p = cond (has t i) (after_meeting meeting p) p', 'partitioned_at t meeting i p = after_meeting meeting p',
           'lib', 't: hearing.t,', 't: ports::ALL,'))
rule('reconnected_by_its_own_collision', 'Partition', 'What a burst makes of a port is not seen by that burst.', 'a port that it partitions may be connected again by it',
     *both('store', 'Door', '(after_meeting (record { collided = has b.collided i; clean = has b.clean i; reconnecting = has b.back i; x = b.x }) p)',
           '(after_meeting (record { collided = false; clean = false; reconnecting = has b.back i; x = b.x }) (after_meeting (record { collided = has b.collided i; clean = has b.clean i; reconnecting = has b.back i; x = b.x }) p))',
           'lib', 'let back = sent & self.partitioned & b.back;', 'let mut first = self.rows;\n        let hit = visit_all(&mut first, connected & b.collided, |row| last_before(b.x) <= row.count);\n        let back = sent & (self.partitioned | hit) & b.back;'),
     ('store/specs/Door.antt', 'Rattle.std.specs.Prelude.{ℕ,', 'Rattle.std.specs.Prelude.{ℕ, false,'))
rule('link_failure_reconnects', 'Partition', 'A failing link leaves the partition.', 'it connects the port',
     ('port/specs/Link.antt', '(cond (leb link_fails_at (p.idle + 1)) (with_link p false 0 0)', '(cond (leb link_fails_at (p.idle + 1)) (with_link (with_partition p false 0) false 0 0)'),
     ('port/specs/Link.antt', 'use Rattle.port.specs.Port.{with_link}', 'use Rattle.port.specs.Port.{with_link, with_partition}'),
     ('port/proofs/PortLaws.antt', 'link_fails_at - 1 ≤ p.idle → with_link p false 0 0 ≡ ticked p', 'link_fails_at - 1 ≤ p.idle → with_link (with_partition p false 0) false 0 0 ≡ ticked p'),
     ('port/src/lib.rt', 'return self.with_link(false);', 'return self.with_link(false).with_partition(false);'))
rule('disabled_stays_partitioned', 'Partition', 'Disabling connects the port.', 'it stays partitioned',
     ('port/specs/Settings.antt', '(with_partition (with_enabled p false) false 0)', '(with_partition (with_enabled p false) p.partitioned 0)'),
     ('port/src/lib.rt', '..self.with_partition(false)', 'count: 0,\n                ..self'))
rule('disabled_keeps_its_count', 'Partition', 'Disabling zeroes the count.', 'it stays',
     ('port/specs/Settings.antt', '(with_partition (with_enabled p false) false 0)', '(with_partition (with_enabled p false) false p.count)'),
     ('port/src/lib.rt', '..self.with_partition(false)', 'partitioned: false,\n                ..self'))

# ---- Link (TP)

rule('link_fails_at_99', 'Link (TP)', 'A link fails at 100 idle.', 'at 99',
     *both('port', 'Link', 'link_fails_at = 100', 'link_fails_at = 99', 'lib', 'pub const LINK_FAILS_AT: u8 = 100;', 'pub const LINK_FAILS_AT: u8 = 99;'))
rule('third_pulse_brings_pass', 'Link (TP)', 'The fourth pulse brings pass.', 'the third',
     *both('port', 'Link', 'link_passes_at = 4', 'link_passes_at = 3', 'lib', 'pub const LINK_PASSES_AT: u8 = 4;', 'pub const LINK_PASSES_AT: u8 = 3;'))
rule('idle_keeps_the_pulses', 'Link (TP)', 'At 100 idle the pulses go to 0.', 'they stay',
     ('port/specs/Link.antt', '(cond (leb link_fails_at (p.idle + 1)) (with_link p false 0 0)', '(cond (leb link_fails_at (p.idle + 1)) (with_link p false 0 p.pulses)'),
     ('port/proofs/PortLaws.antt', 'link_fails_at - 1 ≤ p.idle → with_link p false 0 0 ≡ ticked p', 'link_fails_at - 1 ≤ p.idle → with_link p false 0 p.pulses ≡ ticked p'),
     ('port/src/lib.rt', 'return self.with_link(false);', 'return Self {\n                pulses: self.pulses,\n                ..self.with_link(false)\n            };'))
rule('pulse_in_fail_keeps_idle', 'Link (TP)', 'A pulse zeroes idle.', 'not in link fail',
     ('port/specs/Link.antt', '(with_link p true 0 0) (with_link p false 0 (p.pulses + 1))))', '(with_link p true 0 0) (with_link p false p.idle (p.pulses + 1))))'),
     ('port/proofs/PortLaws.antt', 'with_link p p.link_pass 0 (p.pulses + 1) ≡ pulsed p', 'with_link p p.link_pass p.idle (p.pulses + 1) ≡ pulsed p'),
     ('port/src/lib.rt', '            idle: 0,\n            pulses: self.pulses + 1,', '            pulses: self.pulses + 1,'))
rule('pulse_in_pass_keeps_idle', 'Link (TP)', 'A pulse zeroes idle.', 'not while the link passes',
     ('port/specs/Link.antt', '(cond p.link_pass (with_link p true 0 p.pulses)', '(cond p.link_pass (with_link p true p.idle p.pulses)'),
     ('port/src/lib.rt', 'return Self { idle: 0, ..self };', 'return self;'))
rule('activity_keeps_the_pulses', 'Link (TP)', 'A mask bit zeroes idle and pulses, and brings pass.', 'the pulses stay',
     ('port/specs/Link.antt', 'revived p = cond p.link_test (with_link p true 0 0) p', 'revived p = cond p.link_test (with_link p true 0 p.pulses) p'),
     ('port/src/lib.rt', '        if self.link_test {\n            self.with_link(true)\n',
      '        if self.link_test {\n            Self { pulses: self.pulses, ..self.with_link(true) }\n'))
rule('activity_keeps_idle', 'Link (TP)', 'A mask bit zeroes idle and pulses, and brings pass.', 'idle stays',
     ('port/specs/Link.antt', 'revived p = cond p.link_test (with_link p true 0 0) p', 'revived p = cond p.link_test (with_link p true p.idle 0) p'),
     ('port/src/lib.rt', '        if self.link_test {\n            self.with_link(true)\n',
      '        if self.link_test {\n            Self { idle: self.idle, ..self.with_link(true) }\n'))
rule('activity_brings_no_pass', 'Link (TP)', 'A mask bit zeroes idle and pulses, and brings pass.', 'the link stays',
     ('port/specs/Link.antt', 'revived p = cond p.link_test (with_link p true 0 0) p', 'revived p = cond p.link_test (with_link p p.link_pass 0 0) p'),
     ('port/src/lib.rt', '        if self.link_test {\n            self.with_link(true)\n', '        if self.link_test {\n            self.with_link(self.link_pass)\n'))
rule('disabled_ports_tick_not', 'Link (TP)', 'A disabled port counts ticks too.', 'it does not',
     ('port/specs/Link.antt', 'ticked_at i p = cond (ltb i aui) (ticked p) p', 'ticked_at i p = cond (ltb i aui) (cond p.enabled (ticked p) p) p'),
     ('store/src/lib.rt', 'visit_all(&mut self.rows, self.tested & ports::TP,', 'visit_all(&mut self.rows, self.tested & self.enabled & ports::TP,'))
rule('disabled_ports_pulse_not', 'Link (TP)', 'A disabled port counts pulses too.', 'it does not',
     ('port/specs/Link.antt', 'pulsed_at mask i p = cond (ltb i aui) (cond (has mask i) (pulsed p) p) p', 'pulsed_at mask i p = cond (ltb i aui) (cond (has mask i) (cond p.enabled (pulsed p) p) p) p'),
     ('store/src/lib.rt', 'let reached = mask & self.tested & ports::TP;\n        let failing', 'let reached = mask & self.tested & self.enabled & ports::TP;\n        let failing'))
rule('disabled_ports_revive_not', 'Link (TP)', "A disabled port's mask bit counts too.", 'it does not',
     ('port/specs/Link.antt', 'revived_at mask i p = cond (ltb i aui) (cond (has mask i) (revived p) p) p', 'revived_at mask i p = cond (ltb i aui) (cond (has mask i) (cond p.enabled (revived p) p) p) p'),
     ('store/src/lib.rt', 'let reached = mask & self.tested & ports::TP;\n        visit_all(', 'let reached = mask & self.tested & self.enabled & ports::TP;\n        visit_all('))
rule('ticks_without_link_test', 'Link (TP)', 'Without link test no tick counts.', 'ticks do',
     ('port/specs/Link.antt', 'ticked p =\n    cond p.link_test\n', 'ticked p =\n    cond true\n'),
     ('port/src/lib.rt', '        if !self.link_test {\n            return self;\n        }\n        if Self::LINK_FAILS_AT', '        if Self::LINK_FAILS_AT'))
rule('test_off_leaves_the_link', 'Link (TP)', 'Without link test the link passes.', 'it stays as it was',
     ('port/specs/Settings.antt', '(with_link (with_link_test p false) true 0 0)', '(with_link (with_link_test p false) p.link_pass 0 0)'),
     ('port/src/lib.rt', 'link_test: false,\n                ..self.with_link(true)', 'link_test: false,\n                ..self.with_link(self.link_pass)'))
rule('test_on_starts_at_fail', 'Link (TP)', 'Switching the link test on starts at pass.', 'at fail',
     ('port/specs/Settings.antt', '(with_link (with_link_test p true) true 0 0)', '(with_link (with_link_test p true) false 0 0)'),
     ('port/src/lib.rt', 'link_test: true,\n                ..self.with_link(true)', 'link_test: true,\n                ..self.with_link(false)'))
rule('test_on_again_brings_pass', 'Link (TP)', 'What is set already does nothing.', 'the link test switched on once more brings pass',
     ('port/specs/Settings.antt', 'changed StartingTest p = cond p.link_test p (with_link', 'changed StartingTest p = cond p.link_test (with_link p true 0 0) (with_link'),
     ('port/src/lib.rt', 'Change::Disabling | Change::StoppingTest | Change::StartingTest => self,',
      'Change::StartingTest => self.with_link(true),\n            Change::Disabling | Change::StoppingTest => self,'))
rule('enabling_leaves_the_link', 'Link (TP)', 'Enabling a disabled TP port fails its link under link test.', 'its link stays',
     ('port/specs/Settings.antt', '(with_link (with_enabled p true) false 0 0)', '(with_link (with_enabled p true) p.link_pass 0 0)'),
     ('port/src/lib.rt', 'enabled: true,\n                ..self.with_link(false)', 'enabled: true,\n                ..self.with_link(self.link_pass)'))
rule('enabling_keeps_idle', 'Link (TP)', 'Enabling puts idle and pulses to 0.', 'idle stays',
     ('port/specs/Settings.antt', '(with_link (with_enabled p true) false 0 0)', '(with_link (with_enabled p true) false p.idle 0)'),
     ('port/src/lib.rt', 'enabled: true,\n                ..self.with_link(false)', 'enabled: true,\n                idle: self.idle,\n                ..self.with_link(false)'))
rule('enabling_without_test_fails', 'Link (TP)', 'Enabling fails the link if its test is on.', 'in every case',
     ('port/specs/Settings.antt', '(cond p.link_test (with_link (with_enabled p true) false 0 0) (with_enabled p true))', '(with_link (with_enabled p true) false 0 0)'),
     ('port/src/lib.rt', 'Change::EnablingTp if !self.enabled && self.link_test =>', 'Change::EnablingTp if !self.enabled =>'))
rule('enabled_again_fails', 'Link (TP)', 'What is set already does nothing.', 'enabling an enabled port fails its link',
     ('port/specs/Settings.antt', 'changed EnablingTp p = cond p.enabled p (cond', 'changed EnablingTp p = cond p.enabled (with_link p false 0 0) (cond'),
     ('port/src/lib.rt', 'Change::EnablingTp | Change::EnablingAui =>',
      'Change::EnablingTp if self.enabled => self.with_link(false),\n            Change::EnablingTp | Change::EnablingAui =>'))

# ---- Commands

rule('alternate_aui_does_nothing', 'Commands', '00011111 sets the alternate algorithm of AUI.', 'it does nothing',
     ('repeater/specs/Repeater.antt', 'set_to AlternateAui r = with_alternate r true r.alternate_tp', 'set_to AlternateAui r = r'),
     ('repeater/src/lib.rt', 'Setting::AlternateAui => Self {\n                alternate_aui: true,\n                ..self\n            },', 'Setting::AlternateAui => self,'))
rule('alternate_tp_does_nothing', 'Commands', '00010000 sets the alternate algorithm of the TP ports.', 'it does nothing',
     ('repeater/specs/Repeater.antt', 'set_to AlternateTp r = with_alternate r r.alternate_aui true', 'set_to AlternateTp r = r'),
     ('repeater/src/lib.rt', 'Setting::AlternateTp => Self {\n                alternate_tp: true,\n                ..self\n            },', 'Setting::AlternateTp => self,'))
rule('alternate_sets_exchanged', 'Commands', '00011111 is for AUI and 00010000 for TP.', 'the other way round',
     *both('management', 'Commands', 'one 0b00011111 (Set AlternateAui)', 'one 0b00011111 (Set AlternateTp)',
           'lib', '0b0001_1111 => Command::Set(Setting::AlternateAui),', '0b0001_1111 => Command::Set(Setting::AlternateTp),'),
     *both('management', 'Commands', 'one 0b00010000 (Set AlternateTp)', 'one 0b00010000 (Set AlternateAui)',
           'lib', '0b0001_0000 => Command::Set(Setting::AlternateTp),', '0b0001_0000 => Command::Set(Setting::AlternateAui),'))
rule('aui_on_and_off_exchanged', 'Commands', '00101111 disables AUI and 00111111 enables it.', 'the other way round',
     *both('management', 'Commands', 'one 0b00101111 (Set DisableAui)', 'one 0b00101111 (Set EnableAui)',
           'lib', '0b0010_1111 => Command::Set(Setting::DisableAui),', '0b0010_1111 => Command::Set(Setting::EnableAui),'),
     *both('management', 'Commands', 'one 0b00111111 (Set EnableAui)', 'one 0b00111111 (Set DisableAui)',
           'lib', '0b0011_1111 => Command::Set(Setting::EnableAui),', '0b0011_1111 => Command::Set(Setting::DisableAui),'))
rule('link_tests_exchanged', 'Commands', '01000### switches the link test off and 01010### on.', 'the other way round',
     *both('management', 'Commands', 'eight 0b01000000 (λ port. Set (LinkTestOff port))', 'eight 0b01000000 (λ port. Set (LinkTestOn port))',
           'lib', 'Command::Set(Setting::LinkTestOff(byte - 0b0100_0000))', 'Command::Set(Setting::LinkTestOn(byte - 0b0100_0000))'),
     *both('management', 'Commands', 'eight 0b01010000 (λ port. Set (LinkTestOn port))', 'eight 0b01010000 (λ port. Set (LinkTestOff port))',
           'lib', 'Command::Set(Setting::LinkTestOn(byte - 0b0101_0000))', 'Command::Set(Setting::LinkTestOff(byte - 0b0101_0000))'))
rule('tp_on_and_off_exchanged', 'Commands', '00100### disables a TP port and 00110### enables it.', 'the other way round',
     *both('management', 'Commands', 'eight 0b00100000 (λ port. Set (DisableTp port))', 'eight 0b00100000 (λ port. Set (EnableTp port))',
           'lib', 'Command::Set(Setting::DisableTp(byte - 0b0010_0000))', 'Command::Set(Setting::EnableTp(byte - 0b0010_0000))'),
     *both('management', 'Commands', 'eight 0b00110000 (λ port. Set (EnableTp port))', 'eight 0b00110000 (λ port. Set (DisableTp port))',
           'lib', 'Command::Set(Setting::EnableTp(byte - 0b0011_0000))', 'Command::Set(Setting::DisableTp(byte - 0b0011_0000))'))
rule('sl_and_b_exchanged', 'Commands', '10001011 clears S and L, 10001101 B.', 'the other way round',
     *both('management', 'Commands', 'one 0b10001011 (Get AuiClearSl)', 'one 0b10001011 (Get AuiClearB)',
           'lib', '0b1000_1011 => Command::Get(Query::AuiClearSl),', '0b1000_1011 => Command::Get(Query::AuiClearB),'),
     *both('management', 'Commands', 'one 0b10001101 (Get AuiClearB)', 'one 0b10001101 (Get AuiClearSl)',
           'lib', '0b1000_1101 => Command::Get(Query::AuiClearB),', '0b1000_1101 => Command::Get(Query::AuiClearSl),'))
rule('link_asked_for_m', 'Commands', '11010000 asks for the links and 11110000 for M.', 'the other way round',
     *both('management', 'Commands', 'one 0b11010000 (Get Link)', 'one 0b11010000 (Get Mjlp)',
           'lib', '0b1101_0000 => Command::Get(Query::Link),', '0b1101_0000 => Command::Get(Query::Mjlp),'),
     *both('management', 'Commands', 'one 0b11110000 (Get Mjlp)', 'one 0b11110000 (Get Link)',
           'lib', '0b1111_0000 => Command::Get(Query::Mjlp),', '0b1111_0000 => Command::Get(Query::Link),'))
rule('bsl_keeps_b', 'Commands', '10001111 clears B, S and L.', 'S and L',
     *both('management', 'Status', 'cleared_by AuiClearBsl status = with_sl (with_rate status false) false false', 'cleared_by AuiClearBsl status = with_sl status false false',
           'lib', '                rate: false,\n                sqe: false,', '                sqe: false,'))
rule('none_clears_b', 'Commands', '10001001 clears nothing.', 'B',
     *both('management', 'Status', 'cleared_by Aui status = status', 'cleared_by Aui status = with_rate status false',
           'lib', 'Query::Aui | Query::Partition | Query::Link | Query::Version => self,', 'Query::Aui => Status { rate: false, ..self },\n            Query::Partition | Query::Link | Query::Version => self,'))
rule('rates_stay', 'Commands', "The Get of the bit rate errors clears them.", 'it leaves them',
     *both('management', 'Status', 'cleared_by Rates status = with_rates status 0', 'cleared_by Rates status = status',
           'lib', 'Query::Rates => Status { rates: 0, ..self },', 'Query::Rates => self,'))
rule('m_stays', 'Commands', 'The Get of M clears it.', 'it leaves it',
     *both('management', 'Status', 'cleared_by Mjlp status = with_mjlp status false', 'cleared_by Mjlp status = status',
           'lib', 'Query::Mjlp => Status {\n                mjlp: false,\n                ..self\n            },', 'Query::Mjlp => self,'))
rule('marks_replace_the_status', 'Commands', 'A status bit stays until a Get clears it.', 'S goes with the next burst',
     *both('management', 'Status', 'sqe = status.sqe || marks.sqe;', 'sqe = marks.sqe;', 'lib', 'sqe: self.sqe || marks.sqe,', 'sqe: marks.sqe,'))
rule('s_and_l_exchanged', 'Commands', "In AUI's byte S stands above L.", 'the other way round',
     ('repeater/specs/Answers.antt', '32 * bit r.status.sqe + 16 * bit r.status.loopback', '32 * bit r.status.loopback + 16 * bit r.status.sqe'),
     ('repeater/src/lib.rt', '+ 32 * u8::from(self.status.sqe)\n            + 16 * u8::from(self.status.loopback)', '+ 32 * u8::from(self.status.loopback)\n            + 16 * u8::from(self.status.sqe)'))
rule('p_and_b_exchanged', 'Commands', "In AUI's byte P stands above B.", 'the other way round',
     ('repeater/specs/Answers.antt', '128 * bit (connected_at r aui) + 64 * bit r.status.rate', '128 * bit r.status.rate + 64 * bit (connected_at r aui)'),
     ('repeater/src/lib.rt', '128 * u8::from(connected)\n            + 64 * u8::from(self.status.rate)', '128 * u8::from(self.status.rate)\n            + 64 * u8::from(connected)'))
rule('partitioned_shown_as_1', 'Commands', 'In the Get of the partitions 1 is connected.', '1 is partitioned',
     ('repeater/specs/Answers.antt', 'answer_of Partition r = gather 8 (connected_at r)', 'answer_of Partition r = gather 8 (λ i. not (connected_at r i))'),
     ('repeater/src/lib.rt', 'Query::Partition => 255 - (self.partitioned() % 256) as u8,', 'Query::Partition => (self.partitioned() % 256) as u8,'))
rule('m_in_bit_0', 'Commands', 'M stands in bit 7.', 'in bit 0',
     ('repeater/specs/Answers.antt', 'answer_of Mjlp r = 128 * bit r.status.mjlp', 'answer_of Mjlp r = 1 * bit r.status.mjlp'),
     ('repeater/src/lib.rt', 'Query::Mjlp => 128 * u8::from(self.status.mjlp),', 'Query::Mjlp => u8::from(self.status.mjlp),'))
rule('version_2', 'Commands', '11111111 gives 00000001.', '00000010',
     ('repeater/specs/Answers.antt', 'answer_of Version r = 1', 'answer_of Version r = 2'),
     ('repeater/src/lib.rt', 'pub const VERSION: u8 = 1;', 'pub const VERSION: u8 = 2;'))
rule('s_without_its_flag', 'Commands', 'S: the SQE Test flag.', 'the loopback flag',
     ('burst/specs/Marks.antt', 'sqe = activity.sqe_test;', 'sqe = activity.loopback_missing;'),
     ('burst/src/lib.rt', 'sqe: self.sqe_test,', 'sqe: self.loopback_missing,'))
rule('l_without_sending', 'Commands', 'L: the loopback flag while AUI is sent to.', 'in any case',
     ('burst/specs/Marks.antt', 'loopback = activity.loopback_missing && has effect.out aui;', 'loopback = activity.loopback_missing;'),
     ('burst/src/lib.rt', 'loopback: self.loopback_missing && ports::contains(effect.out, ports::AUI),', 'loopback: self.loopback_missing,'))
rule('m_without_output', 'Commands', 'M: d above 65,536 with some output port.', 'with none too',
     ('burst/specs/Marks.antt', 'mjlp = ltb jabber_above activity.d && not (eqb effect.out 0);', 'mjlp = ltb jabber_above activity.d;'),
     ('burst/src/lib.rt', 'mjlp: Activity::JABBER_ABOVE < self.d && effect.out != 0,', 'mjlp: Activity::JABBER_ABOVE < self.d,'))
rule('b_for_tp_too', 'Commands', 'B is set by a rate error of AUI heard alone.', 'of any port heard alone',
     ('burst/specs/Marks.antt', 'rate = activity.rate_error && is_at effect.single aui;', 'rate = activity.rate_error;'),
     ('burst/src/lib.rt', 'rate: ports::contains(rates, ports::AUI),', 'rate: self.rate_error,'))

# ---- Host registers

rule('p_and_r_exchanged', 'Host registers', 'A C write 000xxxxx selects P and 111xxxxx R.', 'the other way round',
     ('host/specs/Sequence.antt', 'cond (eqb (top_bits byte) 0b000) (restarted (with_selection host (byte % selected_below) host.register))', 'cond (eqb (top_bits byte) 0b000) (restarted (with_selection host host.page (byte % selected_below)))'),
     ('host/specs/Sequence.antt', '(cond (eqb (top_bits byte) 0b111) (restarted (with_selection host host.page (byte % selected_below)))', '(cond (eqb (top_bits byte) 0b111) (restarted (with_selection host (byte % selected_below) host.register))'),
     ('host/src/lib.rt', 'restarted(Host { page: byte, ..host })', 'restarted(Host { register: byte, ..host })'),
     ('host/src/lib.rt', 'register: byte - Host::R_FROM,', 'page: byte - Host::R_FROM,'))
rule('c_write_goes_on', 'Host registers', 'A C write restarts the byte sequence.', 'one that selects R does not',
     ('host/specs/Sequence.antt', '(cond (eqb (top_bits byte) 0b111) (restarted (with_selection host host.page (byte % selected_below)))', '(cond (eqb (top_bits byte) 0b111) (with_selection host host.page (byte % selected_below))'),
     ('host/src/lib.rt', 'Host::R_FROM.. => restarted(Host {\n            register: byte - Host::R_FROM,\n            ..host\n        }),', 'Host::R_FROM.. => Host {\n            register: byte - Host::R_FROM,\n            ..host\n        },'))
rule('interrupt_by_another_enable', 'Host registers', 'The interrupt: some change bit and its own enable are both one.', 'R 0 by the enables of R 1',
     ('changes/specs/Changes.antt', '    both changes enables 0 ||', '    not (eqb (bit_and (get_or changes 0 0) (get_or enables 1 0)) 0) ||'),
     ('changes/src/lib.rt', 'changes[r] & enables[r] != 0', 'changes[r] & enables[if r == 0 { 1 } else { r }] != 0'))
rule('interrupt_without_r7', 'Host registers', 'Every change register can interrupt.', 'all but R 7',
     ('changes/specs/Changes.antt', 'both changes enables 6\n    || both changes enables 7', 'both changes enables 6\n    || both changes enables 6'),
     ('changes/src/lib.rt', '[0, 1, 2, 3, 4, 6, 7]', '[0, 1, 2, 3, 4, 6, 6]'))
rule('c_read_keeps_the_error', 'Host registers', 'A C read clears the interface error.', 'it stays',
     ('access/specs/Access.antt', 'record { core = with_error c false; host = h; answer = Value', 'record { core = c; host = h; answer = Value'),
     ('access/src/lib.rt', '        core: Core {\n            interface_error: false,\n            ..core\n        },\n', '        core,\n'))
rule('error_in_bit_5', 'Host registers', 'The interface error stands in bit 6.', 'in bit 5',
     ('access/specs/Access.antt', '+ cond c.interface_error 64 0)', '+ cond c.interface_error 32 0)'),
     ('access/src/lib.rt', 'interrupt + 64 * u8::from(core.interface_error)', 'interrupt + 32 * u8::from(core.interface_error)'))
rule('collisions_and_octets_exchanged', 'Host registers', 'P 0 R 12 is Transmit Collisions and R 13 Total Octets.', 'the other way round',
     ('host/specs/Map.antt', 'line (only 0) (only 12) (λ i r. TransmitCollisions)', 'line (only 0) (only 13) (λ i r. TransmitCollisions)'),
     ('host/specs/Map.antt', 'line (only 0) (only 13) (λ i r. TotalOctets)', 'line (only 0) (only 12) (λ i r. TotalOctets)'),
     ('host/src/lib.rt', '(0, 12) => Row::listed(Register::TransmitCollisions,', '(0, 13) => Row::listed(Register::TransmitCollisions,'),
     ('host/src/lib.rt', '(0, 13) => Row::listed(Register::TotalOctets,', '(0, 12) => Row::listed(Register::TotalOctets,'))
rule('device_2', 'Host registers', 'P 0 R 28 gives 1.', '2',
     *both('access', 'Access', 'value_of c nine reg.Version = single_of 1', 'value_of c nine reg.Version = single_of 2', 'lib', 'const DEVICE: u8 = 1;', 'const DEVICE: u8 = 2;'))
rule('s_readable', 'Host registers', 'S is written and not read.', 'both',
     ('host/specs/Map.antt', '(λ i r. SetPort) 1 write', '(λ i r. SetPort) 1 both'),
     ('host/src/lib.rt', 'Row::listed(Register::SetPort, 1, Ways::Write,', 'Row::listed(Register::SetPort, 1, Ways::Both,'))
rule('changes_stay_when_read', 'Host registers', 'Reading a change register clears it.', 'it stays',
     ('access/specs/Access.antt', 'read_by (Cleared r) c = with_changes c (set c.changes r 0)', 'read_by (Cleared r) c = c'),
     ('access/src/lib.rt', '        Role::Cleared(r) => Core {\n            changes: changes::with_bits(core.changes, usize::from(r), 0),\n            ..core\n        },\n', '        Role::Cleared(_) => core,\n'))
rule('r5_listed', 'Host registers', 'P 1 and P 2 have no R 5.', 'they do',
     ('host/specs/Map.antt', 'bit_registers = 0 to 4 ∷ 6 to 7 ∷ []', 'bit_registers = 0 to 7 ∷ []'),
     ('host/src/lib.rt', '(1, 0..=4 | 6..=7) =>', '(1, 0..=7) =>'),
     ('host/src/lib.rt', '(2, 0..=4 | 6..=7) =>', '(2, 0..=7) =>'))
rule('loopback_and_sqe_exchanged', 'Host registers', 'P 1 R 3 is the loopback error and R 4 SQE Test.', 'the other way round',
     ('changes/specs/Changes.antt', 'bit7 loopback ∷ bit7 sqe ∷ 0', 'bit7 sqe ∷ bit7 loopback ∷ 0'),
     ('changes/src/lib.rt', '        bit_7(loopback),\n        bit_7(sqe),', '        bit_7(sqe),\n        bit_7(loopback),'))
rule('partition_and_link_exchanged', 'Host registers', 'P 1 R 0 is the TP partition change and R 2 the link change.', 'the other way round',
     ('changes/specs/Changes.antt', 'tp_byte partition ∷ aui_bit partition ∷ tp_byte link ∷', 'tp_byte link ∷ aui_bit partition ∷ tp_byte partition ∷'),
     ('changes/src/lib.rt', '        tp_byte(partition),\n        aui_bit(partition),\n        tp_byte(link),', '        tp_byte(link),\n        aui_bit(partition),\n        tp_byte(partition),'))
rule('only_failing_is_a_change', 'Host registers', 'P 1 R 2 by any change of a link.', 'by links that fail',
     ('chip/specs/Chip.antt', '(bit_xor (linked_of c.repeater) (linked_of r))', '(Rattle.ports.specs.Sets.without (linked_of c.repeater) (linked_of r))'),
     ('chip/src/lib.rt', 'let link = self.repeater.linked() ^ next.linked();', 'let link = ports::less(self.repeater.linked(), next.linked());'))
rule('reconnecting_is_no_change', 'Host registers', 'P 1 R 0 and 1 by any change of partition.', 'by partitions, in a Set',
     ('chip/specs/Chip.antt', 'moved c r loopback sqe address = moved_by c r (bit_xor (partitioned_of c.repeater) (partitioned_of r)) loopback sqe address', 'moved c r loopback sqe address = moved_by c r (Rattle.ports.specs.Sets.without (partitioned_of r) (partitioned_of c.repeater)) loopback sqe address'),
     ('chip/src/lib.rt', 'let partition = self.repeater.partitioned() ^ next.partitioned();', 'let partition = ports::less(next.partitioned(), self.repeater.partitioned());'),
     ('himib/src/lib.rt', 'before ^ after', 'ports::less(after, before)'))
rule('noted_once', 'Host registers', 'A burst with S sets P 1 R 4, already one or not.', 'it sets the bit to what the burst has',
     ('changes/specs/Changes.antt', 'bit_or bits (get_or events register 0)', 'get_or events register 0'),
     ('changes/src/lib.rt', 'changes[r] | events[r]', 'events[r]'))
rule('address_bits_for_every_frame', 'Host registers', 'P 1 R 6 and 7 when Source Address Changes is credited.', 'never',
     ('himib/specs/Bursts.antt', 't.marks.sqe due.changed)', 't.marks.sqe 0)'),
     ('himib/src/lib.rt', '        due.changed,\n', '        0,\n'))
rule('loopback_bit_by_the_status', 'Host registers', 'P 1 R 3 by each burst that sets L.', 'by each burst while L is one',
     ('himib/specs/Bursts.antt', 't.marks.loopback t.marks.sqe', 't.repeater.status.loopback t.marks.sqe'),
     ('himib/src/lib.rt', '        marks.loopback,\n', '        bursted.repeater.status.loopback,\n'))
rule('enables_keep_every_bit', 'Host registers', 'A single AUI bit is bit 7, other bits written are dropped.', 'they are kept at R 4',
     ('changes/specs/Changes.antt', 'eqb register 1 || eqb register 3 || eqb register 4 || eqb register 7', 'eqb register 1 || eqb register 3 || eqb register 7'),
     ('changes/src/lib.rt', 'matches!(register, 1 | 3 | 4 | 7)', 'matches!(register, 1 | 3 | 7)'))
rule('aui_bit_in_bit_0', 'Host registers', 'A single AUI bit is bit 7.', 'bit 0',
     ('changes/specs/Changes.antt', 'bit7 one = cond one 128 0', 'bit7 one = cond one 1 0'),
     ('changes/src/lib.rt', 'const BIT_7: u8 = 128;', 'const BIT_7: u8 = 1;'))
rule('enables_of_r0', 'Host registers', 'P 2 R holds the enables of the same R.', 'a write goes to R 0',
     ('access/specs/Access.antt', 'set c.enables r (kept_bits r b)', 'set c.enables 0 (kept_bits r b)'),
     ('access/src/lib.rt', 'changes::with_bits(core.enables, usize::from(r), changes::keep_bits(r, byte))', 'changes::with_bits(core.enables, 0, changes::keep_bits(r, byte))'))
rule('aui_at_page_24', 'Host registers', "AUI's page is P 31.", 'P 24',
     ('host/specs/Map.antt', 'aui_page = 31', 'aui_page = 24'),
     ('host/src/lib.rt', 'const AUI_PAGE: u8 = 31;', 'const AUI_PAGE: u8 = 24;'))
rule('collisions_at_r8', 'Host registers', 'R 7 is Collisions and R 8 Late Events.', 'the other way round',
     *both('attributes', 'Nine', 'collisions = 7', 'collisions = 8', 'lib', 'pub const COLLISIONS: usize = 7;', 'pub const COLLISIONS: usize = 8;'),
     *both('attributes', 'Nine', 'late_events = 8', 'late_events = 7', 'lib', 'pub const LATE_EVENTS: usize = 8;', 'pub const LATE_EVENTS: usize = 7;'))
rule('runts_at_r5', 'Host registers', 'R 5 is Short Events and R 6 Runts.', 'the other way round',
     *both('attributes', 'Nine', 'short_events = 5', 'short_events = 6', 'lib', 'pub const SHORT_EVENTS: usize = 5;', 'pub const SHORT_EVENTS: usize = 6;'),
     *both('attributes', 'Nine', 'runts = 6', 'runts = 5', 'lib', 'pub const RUNTS: usize = 6;', 'pub const RUNTS: usize = 5;'))
rule('address_of_five_bytes', 'Host registers', 'R 14 has six bytes.', 'five',
     ('host/specs/Map.antt', '(λ i r. Address i) 6 both', '(λ i r. Address i) 5 both'),
     ('host/src/lib.rt', 'Row::listed(Register::Address(port), 6,', 'Row::listed(Register::Address(port), 5,'))
rule('most_significant_first', 'Host registers', 'Bytes come least significant first.', 'most significant first',
     ('host/specs/Bytes.antt', 'spread_of number = least_first 4 number ++ replicate 2 0', 'spread_of number = (number / 256 / 256 / 256 % 256 ∷ number / 256 / 256 % 256 ∷ number / 256 % 256 ∷ number % 256 ∷ []) ++ replicate 2 0'),
     ('host/specs/Bytes.antt', 'Rattle.std.specs.Prelude.{ℕ,', 'Rattle.std.specs.Prelude.{ℕ, ◌/◌, ◌%◌,'),
     ('host/specs/Bytes.antt', 'List, ◌∷◌, ◌++◌', 'List, [], ◌∷◌, ◌++◌'),
     ('host/src/lib.rt', '[first, second, third, fourth, 0, 0]', '[fourth, third, second, first, 0, 0]'))
rule('page_32_is_page_0', 'Host registers', 'A P or R above 31 is a register not listed.', 'P 32 is P 0 again',
     ('host/specs/Map.antt', 'row_at p r = row_on (line_at p r) (port_of p) r', 'row_at p r = row_on (line_at (p % 32) r) (port_of (p % 32)) r'),
     ('host/specs/Map.antt', 'Rattle.std.specs.Prelude.{ℕ,', 'Rattle.std.specs.Prelude.{ℕ, ◌%◌,'),
     ('host/src/lib.rt', '    match (page, register) {\n', '    let page = page % 32;\n    match (page, register) {\n'))
rule('copied_at_every_byte', 'Host registers', 'All bytes come from a copy made at the first.', 'each from the present value',
     ('host/specs/Sequence.antt', 'copied place value bytes = cond (eqb place 0) value bytes', 'copied place value bytes = value'),
     ('host/src/lib.rt', 'if place == Host::FIRST { value } else { held }', 'value'))
rule('last_byte_again', 'Host registers', 'After the last byte the sequence restarts.', 'at the second byte',
     ('host/specs/Sequence.antt', 'next_place size place = cond (is_last size place) 0 (place + 1)', 'next_place size place = cond (is_last size place) 1 (place + 1)'),
     ('host/src/lib.rt', '    if is_last(place, size) {\n        Host::FIRST\n', '    if is_last(place, size) {\n        1\n'))
rule('address_at_the_first_byte', 'Host registers', 'A six-byte write takes effect at the sixth byte.', 'at every byte',
     ('access/specs/Access.antt', 'port = cond t.complete w.port None', 'port = cond true w.port None'),
     ('access/src/lib.rt', 'port: if writing.complete {', 'port: if true {'))
rule('turning_goes_on', 'Host registers', 'Turning between reading and writing starts afresh.', 'it goes on',
     ('host/specs/Sequence.antt', 'place_for writing size host = cond (beq host.writing writing) (cond (ltb host.place size) host.place 0) 0', 'place_for writing size host = cond (ltb host.place size) host.place 0'),
     ('host/src/lib.rt', 'if host.writing == writing && host.place < size {', 'if host.place < size {'))
rule('past_the_end_is_the_last', 'Host registers', "A place past the register's last byte counts as the first.", 'as the second',
     ('host/specs/Sequence.antt', '(cond (ltb host.place size) host.place 0) 0', '(cond (ltb host.place size) host.place 1) 0'),
     ('host/src/lib.rt', '        host.place\n    } else {\n', '        host.place\n    } else if host.writing == writing {\n        1\n    } else {\n'))
rule('written_address_is_counted', 'Host registers', 'A write of the address is no change.', 'it is counted',
     ('attributes/specs/Nine.antt', 'with_address port source = record { counters = port.counters; address = source }', 'with_address port source = record { counters = slice_set port.counters 12 1; address = source }'),
     ('himib/src/lib.rt', '        flat.readdress(port, bytes);', '        flat.readdress(port, bytes);\n        if port < ports::COUNT {\n            flat.counters[108 + port] = 1;\n        }'))
rule('get_error_reversed', 'Host registers', 'A Get through S sets the interface error, one through G does not.', 'the other way round',
     ('access/specs/Access.antt', '(c.interface_error || not through_g)', '(c.interface_error || through_g)'),
     ('access/src/lib.rt', 'core.interface_error | !through_g', 'core.interface_error | through_g'))
rule('set_error_reversed', 'Host registers', 'A Set through G sets the interface error, one through S does not.', 'the other way round',
     ('access/specs/Access.antt', 'obeyed through_g (Set s) c = with_error (moved c (set_to s c.repeater) false false 0) (c.interface_error || through_g)', 'obeyed through_g (Set s) c = with_error (moved c (set_to s c.repeater) false false 0) (c.interface_error || not through_g)'),
     ('access/src/lib.rt', 'core.interface_error | through_g', 'core.interface_error | !through_g'))
rule('set_fills_g', 'Host registers', 'A Set never fills G.', 'it leaves 0 there',
     ('access/specs/Access.antt', 'obeyed through_g (Set s) c = with_error (moved c (set_to s c.repeater) false false 0) (c.interface_error || through_g)', 'obeyed through_g (Set s) c = with_g (with_error (moved c (set_to s c.repeater) false false 0) (c.interface_error || through_g)) 0'),
     ('access/src/lib.rt', 'interface_error: core.interface_error | through_g,', 'interface_error: core.interface_error | through_g,\n            g: 0,'))
rule('get_leaves_g', 'Host registers', 'A Get always fills G.', 'it leaves G as it was',
     ('access/specs/Access.antt', '(got_of q c.repeater).value', 'c.g'),
     ('access/src/lib.rt', '                g: got.value,\n', ''))
rule('get_through_s_not_carried_out', 'Host registers', 'A Get through S is carried out.', 'it gives its answer and clears nothing',
     ('access/specs/Access.antt', '(moved c (got_of q c.repeater).repeater false false 0)', '(moved c (cond through_g (got_of q c.repeater).repeater c.repeater) false false 0)'),
     ('access/src/lib.rt', '..core.move_to(got.repeater)', '..core.move_to(if through_g { got.repeater } else { core.repeater })'))
rule('set_without_its_change', 'Host registers', 'What a Set changes of links and partitions is noted.', 'it is not',
     ('access/specs/Access.antt', 'obeyed through_g (Set s) c = with_error (moved c (set_to s c.repeater) false false 0)', 'obeyed through_g (Set s) c = with_error (Rattle.chip.specs.Chip.with_repeater c (set_to s c.repeater) c.changes)'),
     ('access/src/lib.rt', '..core.move_to(core.repeater.set(setting))', 'repeater: core.repeater.set(setting),\n            ..core'))

# ---- Host registers: reset and power-up

rule('reset_leaves_ports_disabled', 'Reset and power-up', 'All ports are enabled.', 'the TP ports are not',
     ('port/specs/Reset.antt', 'tp_up = record { enabled = true;', 'tp_up = record { enabled = false;'),
     ('port/src/lib.rt', '            enabled: true,\n            link_test: true,', '            enabled: false,\n            link_test: true,'))
rule('reset_leaves_links_passing', 'Reset and power-up', 'TP ports are in link fail.', 'they pass',
     ('port/specs/Reset.antt', 'link_test = true; link_pass = false;', 'link_test = true; link_pass = true;'),
     ('port/src/lib.rt', '            link_test: true,\n            ..Self::default()', '            link_test: true,\n            link_pass: true,\n            ..Self::default()'))
rule('alternate_at_power_up', 'Reset and power-up', 'Both algorithms are standard.', "AUI's is the alternate one",
     ('repeater/specs/Reset.antt', 'alternate_aui = false;', 'alternate_aui = true;'),
     ('repeater/specs/Reset.antt', 'use Rattle.std.specs.Prelude.{false}', 'use Rattle.std.specs.Prelude.{true, false}'),
     ('repeater/src/lib.rt', '            alternate_aui: false,', '            alternate_aui: true,'))
rule('reset_keeps_the_enables', 'Reset and power-up', 'Enables are zero.', 'a reset keeps them',
     ('chip/specs/Chip.antt', 'core_reset c = core_up c.kept', 'core_reset c = record { repeater = power_up; changes = replicate 8 0; enables = c.enables; kept = c.kept; interface_error = false; g = 0 }'),
     ('chip/src/lib.rt', '        Core::power_up(self.kept)', '        let enables = self.enables;\n        let mut out = Core::power_up(self.kept);\n        out.enables = enables;\n        out'))
rule('reset_keeps_g', 'Reset and power-up', 'G is zero.', 'a reset keeps it',
     ('chip/specs/Chip.antt', 'core_reset c = core_up c.kept', 'core_reset c = record { repeater = power_up; changes = replicate 8 0; enables = replicate 8 0; kept = c.kept; interface_error = false; g = c.g }'),
     ('chip/src/lib.rt', '        Core::power_up(self.kept)', '        let mut out = Core::power_up(self.kept);\n        out.g = self.g;\n        out'))
rule('reset_zeroes_the_counters', 'Reset and power-up', 'Counters survive a reset.', 'Transmit Collisions and Total Octets do not',
     ('chip/specs/Chip.antt', 'core_reset c = core_up c.kept', 'core_reset c = core_up (record { transmit_collisions = 0; total_octets = 0; choices = c.kept.choices })'),
     ('chip/src/lib.rt', '        Core::power_up(self.kept)', '        let mut kept = self.kept;\n        kept.transmit_collisions = 0;\n        kept.total_octets = 0;\n        Core::power_up(kept)'))
rule('counters_given_are_lost', 'Reset and power-up', 'At power-up the caller gives the counters.', 'Transmit Collisions starts at 0',
     *both('chip', 'Chip', 'core_up (with_choices given.kept (settled_of given.kept.choices))',
           'core_up (record { transmit_collisions = 0; total_octets = given.kept.total_octets; choices = settled_of given.kept.choices })',
           'lib', '        kept.choices = kept.choices.settled();', '        kept.choices = kept.choices.settled();\n        kept.transmit_collisions = 0;'))
rule('reset_keeps_the_selection', 'Reset and power-up', 'P and R are zero.', 'a reset keeps them',
     ('himib/specs/Step.antt', 'taken ask.Reset source s h = finished (with_core s (core_reset s.core)) power_up', 'taken ask.Reset source s h = finished (with_core s (core_reset s.core)) h'),
     ('himib/src/lib.rt', 'Followed::done(core.reset(), Host::power_up())', 'Followed::done(core.reset(), h)'))

# ---- Two readings

rule('difference_reversed', 'Two readings', 'Later minus earlier.', 'earlier minus later',
     ('attributes/specs/Octets.antt', 'difference_of later earlier = (later + 2 ^ 32 - earlier) % 2 ^ 32', 'difference_of later earlier = (earlier + 2 ^ 32 - later) % 2 ^ 32'),
     ('attributes/src/octets.rt', 'later.wrapping_sub(earlier)', 'earlier.wrapping_sub(later)'))
rule('octet_check_from_63', 'Two readings', 'Yes from 64 octets a frame on.', 'from 63 on',
     ('attributes/specs/Octets.antt', '(Ok (nat_le (shortest * frames) octets', '(Ok (nat_le (63 * frames) octets'),
     ('attributes/src/octets.rt', 'Ok(Attributes::SHORTEST * frames <= octets', 'Ok(63 * frames <= octets'))
rule('octet_check_below_1518', 'Two readings', 'Yes up to 1518 octets a frame.', 'up to 1517',
     ('attributes/specs/Octets.antt', 'nat_le octets (longest * frames))', 'nat_le octets (1517 * frames))'),
     ('attributes/src/octets.rt', 'octets <= Attributes::LONGEST * frames)', 'octets <= 1517 * frames)'))

# ---- Many readings

STEP = 'total_after last (r ∷ rs) = difference_of r last + total_after r rs'
rule('sum_modulo_32', 'Many readings', 'The differences add up to a whole number.', 'modulo 2^32',
     *both('attributes', 'Octets', STEP, 'total_after last (r ∷ rs) = (difference_of r last + total_after r rs) % 2 ^ 32',
           'octets', 'before = reading;', 'total = total % 4_294_967_296; before = reading;'))
rule('first_reading_added', 'Many readings', 'The sum begins at the first reading with 0.', 'with the reading',
     *both('attributes', 'Octets', 'total_of (r ∷ rs) = total_after r rs', 'total_of (r ∷ rs) = r + total_after r rs',
           'octets', 'carried(0, *first, rest)', 'carried(u64::from(*first), *first, rest)'))
rule('earlier_minus_later', 'Many readings', 'Each difference is later minus earlier.', 'earlier minus later',
     *both('attributes', 'Octets', STEP, 'total_after last (r ∷ rs) = difference_of last r + total_after r rs',
           'octets', 'difference(reading, before)', 'difference(before, reading)'))
rule('smaller_reading_dropped', 'Many readings', 'A later reading that is smaller has wrapped.', 'adds nothing',
     *both('attributes', 'Octets', STEP, 'total_after last (r ∷ rs) = cond (nat_lt r last) 0 (difference_of r last) + total_after r rs',
           'octets', 'difference(reading, before)', 'if reading < before { 0 } else { difference(reading, before) }'))
rule('last_sum_too_large', 'Many readings', '64 bits hold every sum below 2^64.', 'below 2^64 - 1',
     *both('attributes', 'Octets', 'cond (nat_lt n (2 ^ 64)) (Some n) None', 'cond (nat_lt n (2 ^ 64 - 1)) (Some n) None',
           'octets', '    Some(total)', '    if total < u64::MAX { Some(total) } else { None }'))
rule('too_large_forgotten', 'Many readings', 'A sum that did not fit never fits again.', 'the next readings begin it anew',
     *both('attributes', 'Octets', 'total_on None last rs = None', 'total_on None last rs = answered (total_after last rs)',
           'octets', 'carried(sum?, last, readings)', 'carried(sum.unwrap_or(0), last, readings)'))
rule('readings_most_significant_first', 'Many readings', 'The first byte of a reading is the least significant.', 'the most significant',
     *both('chain', 'Chain', 'spelt (a ∷ b ∷ c ∷ d ∷ []) ∷ readings_in rest', 'spelt (d ∷ c ∷ b ∷ a ∷ []) ∷ readings_in rest',
           'lib', 'four(bytes[0], bytes[1], bytes[2], bytes[3])', 'four(bytes[3], bytes[2], bytes[1], bytes[0])'))
rule('stretches_apart', 'Many readings', 'The first reading of a stretch follows the last of the one before.', 'each stretch is a row of its own',
     *both('chain', 'Chain', '(Some last) rs = total_on total last rs', '(Some last) rs = total_on total (Rattle.std.specs.Prelude.get_or rs 0 last) rs',
           'lib', 'Some(last) => carried(chain.total, last, bytes)', 'Some(_) => carried(chain.total, reading_of(&bytes[..Chain::READING]), bytes)'))

# ---- The short event limit

rule('short_at_the_limit', 'Short event limit', 'A burst with d below the limit is a short event.', 'and so is one at the limit',
     *both('attributes', 'Credits', 'cond (nat_lt burst.d limit) short_events', 'cond (Rattle.std.specs.Prelude.leb burst.d limit) short_events',
           'lib', 'if burst.d < limit {', 'if burst.d <= limit {'))
rule('runts_by_the_limit', 'Short event limit', 'Nothing else depends on the limit.', 'Runts have fewer octets than the limit says',
     *both('attributes', 'Credits', '(cond (nat_lt burst.n shortest) runts', '(cond (nat_lt burst.n limit) runts',
           'lib', 'if burst.n < Attributes::SHORTEST {', 'if burst.n < limit {'))
rule('lowest_limit_76', 'Short event limit', '75 is a limit.', '76 is the lowest',
     *both('attributes', 'Credits', 'short_from = 75', 'short_from = 76', 'lib', 'pub const SHORT_FROM: u32 = 75;', 'pub const SHORT_FROM: u32 = 76;'))
rule('highest_limit_80', 'Short event limit', '81 is a limit.', '80 is the highest',
     *both('attributes', 'Credits', 'short_to = 81', 'short_to = 80', 'lib', 'pub const SHORT_TO: u32 = 81;', 'pub const SHORT_TO: u32 = 80;'))
rule('limit_74_accepted', 'Short event limit', 'A limit below 75 is turned away.', '74 is taken',
     *both('chip', 'Chip', 'nat_le short_from choices', 'nat_le 74 choices', 'lib', 'Attributes::SHORT_FROM <= self.short_limit', '74 <= self.short_limit'))
rule('limit_82_accepted', 'Short event limit', 'A limit above 81 is turned away.', '82 is taken',
     *both('chip', 'Chip', 'nat_le choices.short_limit short_to', 'nat_le choices.short_limit 82',
           'lib', 'self.short_limit <= Attributes::SHORT_TO', 'self.short_limit <= 82'))
rule('limit_refused_with_2', 'Short event limit', 'The number is 13.', 'it is 2',
     *both('chip', 'Chip', 'limit_refused = 13', 'limit_refused = 2', 'lib', 'pub const LIMIT_REFUSED: u8 = 13;', 'pub const LIMIT_REFUSED: u8 = 2;'))
rule('any_limit_taken', 'Short event limit', 'A limit is turned away at power-up.', 'power-up answers 0 to any',
     *both('chip', 'Chip', 'cond (fits choices) 0 limit_refused', 'cond (fits choices) 0 0', 'lib', '            Choices::LIMIT_REFUSED\n', '            0\n'))
rule('refused_limit_kept', 'Short event limit', 'Beside a 13 stands the chip with 78.', 'the chip with the limit turned away',
     *both('chip', 'Chip', 'cond (fits choices) choices usual', 'cond (fits choices) choices choices', 'lib', 'else { Choices::usual() }', 'else { self }'))
rule('reset_brings_78_back', 'Short event limit', 'A reset leaves the limit.', 'it brings the usual one back',
     *both('chip', 'Chip', 'core_reset c = core_up c.kept', 'core_reset c = core_up (with_choices c.kept usual)',
           'lib', '        Core::power_up(self.kept)', '        let mut kept = self.kept;\n        kept.choices = Choices::usual();\n        Core::power_up(kept)'))
rule('burst_brings_78_back', 'Short event limit', 'Nothing changes the limit.', 'the first burst brings the usual one back',
     *both('chip', 'Chip', '      choices = c.kept.choices;\n', '      choices = usual;\n',
           'lib', '            ..kept\n', '            choices: Choices::usual(),\n'))
rule('bursts_go_by_78', 'Short event limit', 'A burst is judged by the limit that was given.', 'by 78',
     *both('himib', 'Bursts', 'limit = c.kept.choices.short_limit;', 'limit = 78;', 'lib', 'limit: core.kept.choices.short_limit,', 'limit: 78,'))
rule('limit_cut_to_a_byte', 'Short event limit', "A start file's limit has four bytes.", 'the first alone counts',
     *both('start', 'Start', 'short_limit = number_from s limit_from', 'short_limit = get_or s limit_from 0',
           'lib', 'number_from(s, Started::LIMIT_FROM)', 's[Started::LIMIT_FROM] as u32'))
rule('limit_one_byte_on', 'Short event limit', 'The limit stands right behind the 530 bytes.', 'one byte further on',
     *both('start', 'Start', 'limit_from = start_size', 'limit_from = start_size + 1', 'lib', 'LIMIT_FROM: usize = Started::SIZE;', 'LIMIT_FROM: usize = Started::SIZE + 1;'))
rule('last_byte_free', 'Short event limit', 'The last of 535 bytes is 0.', 'it may be anything',
     *both('start', 'Start', ' || (eqb (length s) chosen_size && eqb (get_or s spare_at 0) 0)', ' || eqb (length s) chosen_size',
           'lib', ' && s[Started::SPARE] == 0', ''))
