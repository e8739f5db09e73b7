#!/usr/bin/env python3
"""Tries the comparison itself: plants one wrong rule at a time in a copy of the model, and asks that it be found.

    mutants.py [NAME..] [--traces N]

A planted rule is a replacement of text in the model's state machine. It counts as found when the copy's lines
differ from the model's on one of the traces that compare.py would run; for the sum of differences, on one of the
lists of readings that totals.py has by hand. It is part of the gate: the compiler keeps what a planted rule leaves
alone, and so all of them take about a minute of one processor.
"""

import argparse
import sys
import tempfile
from pathlib import Path

import compare
import generate
import program
import record as rec
import totals

# name: what stands in the model, what is planted; a rule that stands at two places has four texts
PLANTED = {
    # thresholds
    '31 collisions partition': ('COLLISIONS_TO_PARTITION: u8 = 32', 'COLLISIONS_TO_PARTITION: u8 = 31'),
    '33 collisions partition': ('COLLISIONS_TO_PARTITION: u8 = 32', 'COLLISIONS_TO_PARTITION: u8 = 33'),
    'x 1024 partitions': ('LONG_COLLISION_ABOVE: u32 = 1024', 'LONG_COLLISION_ABOVE: u32 = 1023'),
    "x 1025 doesn't partition": ('LONG_COLLISION_ABOVE: u32 = 1024', 'LONG_COLLISION_ABOVE: u32 = 1025'),
    'd 512 zeroes and reconnects': ('LASTING_ABOVE: u32 = 512', 'LASTING_ABOVE: u32 = 511'),
    'd 513 neither zeroes nor reconnects': ('LASTING_ABOVE: u32 = 512', 'LASTING_ABOVE: u32 = 513'),
    'd 512 reconnects': ('} else if lasting && (', '} else if !port.connected && b.d >= LASTING_ABOVE && ('),
    "d 513 doesn't reconnect": ('} else if lasting && (', '} else if b.d > LASTING_ABOVE + 1 && ('),
    'd 512 zeroes the count': ('if lasting && port.connected {', 'if b.d >= LASTING_ABOVE && port.connected {'),
    "d 513 doesn't zero the count": ('if lasting && port.connected {\n                        self.ports[place].count = 0;', 'if lasting && port.connected {\n                        if b.d > LASTING_ABOVE + 1 { self.ports[place].count = 0; }'),
    'c 512 is late': ('LATE_ABOVE: u32 = 512', 'LATE_ABOVE: u32 = 511'),
    "c 513 isn't late": ('LATE_ABOVE: u32 = 512', 'LATE_ABOVE: u32 = 513'),
    'd 65,536 is very long': ('VERY_LONG_ABOVE: u32 = 65_536', 'VERY_LONG_ABOVE: u32 = 65_535'),
    "d 65,537 isn't very long": ('VERY_LONG_ABOVE: u32 = 65_536', 'VERY_LONG_ABOVE: u32 = 65_537'),
    'd 552 is a mismatch': ('MISMATCH_ABOVE: u32 = 552', 'MISMATCH_ABOVE: u32 = 551'),
    'd 553 is no mismatch': ('MISMATCH_ABOVE: u32 = 552', 'MISMATCH_ABOVE: u32 = 553'),
    'd 77 is no short event': ('SHORT_BELOW: u32 = 78', 'SHORT_BELOW: u32 = 77'),
    'd 78 is a short event': ('SHORT_BELOW: u32 = 78', 'SHORT_BELOW: u32 = 79'),
    'n 63 is no runt': ('SMALLEST_FRAME: u32 = 64', 'SMALLEST_FRAME: u32 = 63'),
    'n 64 is a runt': ('SMALLEST_FRAME: u32 = 64', 'SMALLEST_FRAME: u32 = 65'),
    'n 1518 is too long': ('LARGEST_FRAME: u32 = 1518', 'LARGEST_FRAME: u32 = 1517'),
    "n 1519 isn't too long": ('LARGEST_FRAME: u32 = 1518', 'LARGEST_FRAME: u32 = 1519'),
    '99 ticks fail': ('TICKS_TO_FAIL: u8 = 100', 'TICKS_TO_FAIL: u8 = 99'),
    '100 ticks pass': ('TICKS_TO_FAIL: u8 = 100', 'TICKS_TO_FAIL: u8 = 101'),
    'three pulses pass': ('PULSES_TO_PASS: u8 = 4', 'PULSES_TO_PASS: u8 = 3'),
    'five pulses pass': ('PULSES_TO_PASS: u8 = 4', 'PULSES_TO_PASS: u8 = 5'),
    'd 1,000,000 refused': ('LONGEST_BURST: u32 = 1_000_000', 'LONGEST_BURST: u32 = 999_999'),
    'd 1,000,001 taken': ('LONGEST_BURST: u32 = 1_000_000', 'LONGEST_BURST: u32 = 1_000_001'),
    # the short event limit
    'the limit is ignored': ('b.d < self.short_below {', 'b.d < SHORT_BELOW {'),
    'd at the limit is a short event': ('b.d < self.short_below {', 'b.d <= self.short_below {'),
    'd at the limit is a short event, but for 78': ('b.d < self.short_below {', 'b.d < self.short_below + (self.short_below != SHORT_BELOW) as u32 {'),
    'a limit below 78 is ignored': ('b.d < self.short_below {', 'b.d < self.short_below.max(SHORT_BELOW) {'),
    'a limit above 78 is ignored': ('b.d < self.short_below {', 'b.d < self.short_below.min(SHORT_BELOW) {'),
    'a reset takes the limit back to 78': ('*self = Chip::fresh(self.attributes, self.short_below);', '*self = Chip::fresh(self.attributes, SHORT_BELOW);'),
    'the limit also taken for Runts': ('b.n < SMALLEST_FRAME {', 'b.n < self.short_below {'),
    'the size of a runt moves with the limit': ('b.n < SMALLEST_FRAME {', 'b.n + SHORT_BELOW < SMALLEST_FRAME + self.short_below {'),
    'a short event is a runt as well': ('self.credit(port, class, 1);', 'self.credit(port, class, 1); if class == SHORT_EVENTS { self.credit(port, RUNTS, 1); }'),
    'a collision below the limit is a short event': ('if scene.collision {\n                    self.credit(port, COLLISIONS, 1);', 'if scene.collision {\n                    self.credit(port, if b.d < self.short_below { SHORT_EVENTS } else { COLLISIONS }, 1);'),
    'the limit moves the rate mismatch': ('b.d > MISMATCH_ABOVE {', 'b.d + SHORT_BELOW > MISMATCH_ABOVE + self.short_below {'),
    'the limit moves what lasts': ('let lasting = b.d > LASTING_ABOVE;', 'let lasting = b.d + SHORT_BELOW > LASTING_ABOVE + self.short_below;'),
    'the limit moves what is late': ('if b.c > LATE_ABOVE {', 'if b.c + SHORT_BELOW > LATE_ABOVE + self.short_below {'),
    'the limit moves what is very long': ('if b.d > VERY_LONG_ABOVE {\n', 'if b.d + SHORT_BELOW > VERY_LONG_ABOVE + self.short_below {\n'),
    'limit 74 accepted': ('LEAST_LIMIT: u32 = 75', 'LEAST_LIMIT: u32 = 74'),
    'limit 75 refused': ('LEAST_LIMIT: u32 = 75', 'LEAST_LIMIT: u32 = 76'),
    'limit 82 accepted': ('LARGEST_LIMIT: u32 = 81', 'LARGEST_LIMIT: u32 = 82'),
    'limit 81 refused': ('LARGEST_LIMIT: u32 = 81', 'LARGEST_LIMIT: u32 = 80'),
    'every limit accepted': ('return Err(13);', ''),
    'a limit outside taken for 78': ('return Err(13);', 'return Ok(Chip::fresh(attributes, SHORT_BELOW));'),
    '13 at the first record': ('return Err(13);', '', 'match decode(bytes) {\n                Err(number)', 'if self.short_below < LEAST_LIMIT || self.short_below > LARGEST_LIMIT { return Answer::Refused(13); }\n            match decode(bytes) {\n                Err(number)'),
    '13 behind the other refusals of a record': ('return Err(13);', '', 'Ok(Record::Burst(burst)) => self.burst(&burst)', 'Ok(_) if self.short_below < LEAST_LIMIT || self.short_below > LARGEST_LIMIT => Answer::Refused(13),\n                Ok(Record::Burst(burst)) => self.burst(&burst)'),
    'the limit cut to one byte': ('=> number(bytes, START_BYTES)', '=> number(bytes, START_BYTES) & 0xff'),
    'the limit cut to two bytes': ('=> number(bytes, START_BYTES)', '=> number(bytes, START_BYTES) & 0xffff'),
    "the limit's most significant byte first": ('=> number(bytes, START_BYTES)', '=> number(bytes, START_BYTES).swap_bytes()'),
    "a start file's last byte free": ('LONG_START_BYTES if bytes[START_BYTES + 4] == 0 =>', 'LONG_START_BYTES =>'),
    'a start file without its last byte': ('LONG_START_BYTES: usize = START_BYTES + 5', 'LONG_START_BYTES: usize = START_BYTES + 4', 'if bytes[START_BYTES + 4] == 0 =>', '=>'),
    # the record
    'k 8 taken': ('b.k > 7', 'b.k > 8'),
    'octets summed in 32 bits': ('8 * b.n as u64 + b.k as u64 > d', 'b.n.wrapping_mul(8).wrapping_add(b.k as u32) as u64 > d'),
    'dribble bits left out of the sum': ('8 * b.n as u64 + b.k as u64 > d', '8 * b.n as u64 > d'),
    'collision summed in 32 bits': ('b.c as u64 + b.x as u64 > d', 'b.c.wrapping_add(b.x) as u64 > d'),
    'flag bit 5 taken': ('table[1][1] = 0b0001_1111', 'table[1][1] = 0b0011_1111'),
    'byte 13 free in a burst': ('if at < 13 || at >= 16', 'if at < 14 || at >= 16'),
    'bytes 30 and 31 free in a burst': ('while at < 30 {', 'while at < 32 {'),
    'mask free in a tick': ('table[2][3] = 0xff;', 'table[2][3] = 0xff; table[3][2] = 0xff;'),
    'mask bit 9 taken': ('burst.mask > 0x1ff', 'burst.mask > 0x3ff'),
    'high pulse bits get 8': ('2 if bytes[3] != 0 => Err(3)', '2 if bytes[3] != 0 => Err(8)'),
    '2 before 3': ('if burst.mask > 0x1ff {\n                    return Err(3);\n                }\n                if out_of_range(&burst) {\n                    return Err(2);\n                }',
                   'if out_of_range(&burst) {\n                    return Err(2);\n                }\n                if burst.mask > 0x1ff {\n                    return Err(3);\n                }'),
    'AUI signal alone refused': ('burst.mask == 0 && !burst.aui_collision', 'burst.mask == 0'),
    'C write 001 taken': ('0b000 | 0b111 =>', '0b000 | 0b001 | 0b111 =>'),
    # burst
    'partitioned port heard': ('let heard = active & listened;', 'let heard = active & sendable;'),
    'partitioned port not sent to': ('if port.enabled && port.passing {', 'if port.enabled && port.passing && port.connected {'),
    'failed link sent to': ('if port.enabled && port.passing {', 'if port.enabled {'),
    'disabled port sent to': ('if port.enabled && port.passing {', 'if port.passing {'),
    'AUI signal not activity': ('let active = b.mask | signal;', 'let active = b.mask;'),
    'link counts in its own burst': ('let scene = self.scene(b);', 'self.activity(b.mask); let scene = self.scene(b);'),
    'data back to its sender': ('1 => (Word::Rep, sendable & !heard)', '1 => (Word::Rep, sendable)'),
    'rate error repeated': ('1 if aui_alone || b.rate_error =>', '1 if aui_alone =>'),
    'AUI signal alone repeated': ('1 if aui_alone || b.rate_error =>', '1 if b.rate_error =>'),
    'single jam to all': ('(Word::Jam, sendable & !heard)', '(Word::Jam, sendable)'),
    'two jam to others alone': ('_ => (Word::Jam, sendable)', '_ => (Word::Jam, sendable & !heard)'),
    'rate error is a collision': ('active & sendable & !heard', 'if b.rate_error { active & sendable } else { active & sendable & !heard }'),
    'AUI signal and a heard port jam': ('1 if aui_alone || b.rate_error =>', '1 if b.aui_collision || b.rate_error =>'),
    'several partitioned ports collide on nil': ('signal & sendable\n', 'active & sendable\n'),
    'AUI signal no collision on nil': ('signal & sendable\n', '0\n'),
    'AUI alone is a transmit collision': ('if ones >= 2 {', 'if scene.collision {'),
    'silent ports collide in jam': ('            let collided = if collision {\n                active & sendable', '            let collided = if collision {\n                sendable'),
    # credits
    'AUI alone is never late': ('if b.c > LATE_ABOVE {', 'if ones >= 2 && b.c > LATE_ABOVE {'),
    'late by the end of the collision': ('if b.c > LATE_ABOVE {', 'if b.c + b.x > LATE_ABOVE {'),
    'very long for a single port alone': ('if b.d > VERY_LONG_ABOVE {\n', 'if ones == 1 && b.d > VERY_LONG_ABOVE {\n'),
    'very long not in collisions': ('if b.d > VERY_LONG_ABOVE {\n', 'if !scene.collision && b.d > VERY_LONG_ABOVE {\n'),
    'dribble alone is alignment': ('b.fcs_bad && b.k > 0', 'b.k > 0'),
    'runt before short': ('b.d < self.short_below {', 'b.d < self.short_below && b.n >= SMALLEST_FRAME {'),
    'FCS before too long': ('} else if b.n > LARGEST_FRAME {', '} else if b.n > LARGEST_FRAME && !b.fcs_bad {'),
    'octets by d': ('self.credit(port, READABLE_OCTETS, b.n);', 'self.credit(port, READABLE_OCTETS, b.d / 8);'),
    'total octets of all frames': ('if class == READABLE_FRAMES {', 'if class != READABLE_FRAMES { self.attributes.total_octets = self.attributes.total_octets.wrapping_add(b.n); } else {'),
    'address from unreadable frames': ('self.credit(port, class, 1);', 'self.credit(port, class, 1); if class == FCS_ERRORS { self.attributes.ports[port].address = b.source; }'),
    'address compared in five bytes': ('self.attributes.ports[port].address != b.source', 'self.attributes.ports[port].address[..5] != b.source[..5]'),
    'address always a change': ('if self.attributes.ports[port].address != b.source {', 'if true {'),
    "mismatch in AUI's collision": ('if ones == 1 && !scene.collision {', 'if ones == 1 && scene.collision && b.rate_error && b.d > MISMATCH_ABOVE { self.credit(AUI, RATE_MISMATCHES, 1); }\n            if ones == 1 && !scene.collision {'),
    'mismatch only when nothing else collides': ('if b.rate_error && b.d > MISMATCH_ABOVE {', 'if b.rate_error && b.d > MISMATCH_ABOVE && b.mask.count_ones() == 1 {'),
    'port counters stop at the top': ('*value = value.wrapping_add(amount);', '*value = value.saturating_add(amount);'),
    'transmit collisions stop': ('self.attributes.transmit_collisions.wrapping_add(1)', 'self.attributes.transmit_collisions.saturating_add(1)'),
    'total octets stop': ('self.attributes.total_octets.wrapping_add(b.n)', 'self.attributes.total_octets.saturating_add(b.n)'),
    # status
    'rate bits of two ports': ('if b.rate_error && scene.heard.count_ones() == 1 {', 'if b.rate_error {'),
    "rate bit not for AUI's collision": ('if b.rate_error && scene.heard.count_ones() == 1 {', 'if b.rate_error && scene.heard.count_ones() == 1 && !scene.collision {'),
    'rate bit above 552 alone': ('if b.rate_error && scene.heard.count_ones() == 1 {', 'if b.rate_error && b.d > 552 && scene.heard.count_ones() == 1 {'),
    'S needs AUI enabled': ('if b.sqe_test {', 'if b.sqe_test && self.ports[AUI].enabled {'),
    'S needs a word': ('if b.sqe_test {', 'if b.sqe_test && scene.word != Word::Nil {'),
    'S change once': ('self.sqe_test = true;\n                self.changes[SQE_TEST] |= 0x80;', 'if !self.sqe_test { self.changes[SQE_TEST] |= 0x80; }\n                self.sqe_test = true;'),
    'L change once': ('self.loopback_error = true;\n                self.changes[LOOPBACK_ERROR] |= 0x80;', 'if !self.loopback_error { self.changes[LOOPBACK_ERROR] |= 0x80; }\n                self.loopback_error = true;'),
    'L without sending': ('if b.loopback_missing && scene.out & AUI_BIT != 0 {', 'if b.loopback_missing {'),
    'L not in jam': ('if b.loopback_missing && scene.out & AUI_BIT != 0 {', 'if b.loopback_missing && scene.out & AUI_BIT != 0 && scene.word == Word::Rep {'),
    'M without output': ('if b.d > VERY_LONG_ABOVE && scene.out != 0 {', 'if b.d > VERY_LONG_ABOVE {'),
    'd 65,536 sets M': ('if b.d > VERY_LONG_ABOVE && scene.out != 0 {', 'if b.d >= VERY_LONG_ABOVE && scene.out != 0 {'),
    # partition
    'nil is never clean': ('scene.word != Word::Jam && (scene.active', 'scene.word == Word::Rep && (scene.active'),
    'jam counts as clean': ('scene.word != Word::Jam && (scene.active', '(scene.active'),
    'active port not clean': ('(scene.active & bit != 0 || sent_data)', 'sent_data'),
    'silent port clean': ('(scene.active & bit != 0 || sent_data)', '(scene.active & bit == 0 || sent_data || true)'),
    'a short clean burst zeroes the count': ('if lasting && port.connected {', 'if port.connected {'),
    'a clean burst never zeroes the count': ('if lasting && port.connected {\n                        self.ports[place].count = 0;', 'if lasting && port.connected {'),
    'a short clean burst takes one off the count': ('let lasting = b.d > LASTING_ABOVE;', 'let lasting = b.d > LASTING_ABOVE;\n                    if !lasting { self.ports[place].count = port.count.saturating_sub(1); }'),
    'a short clean burst keeps the count only if data was sent': ('if lasting && port.connected {', 'if (lasting || !sent_data) && port.connected {'),
    'a short clean burst keeps the count only of the port heard': ('if lasting && port.connected {', 'if (lasting || sent_data) && port.connected {'),
    'a short clean burst zeroes by the alternate algorithm': ('if lasting && port.connected {', 'if (lasting || alternate) && port.connected {'),
    'a short clean burst zeroes by the standard algorithm': ('if lasting && port.connected {', 'if (lasting || !alternate) && port.connected {'),
    'a short clean burst zeroes a count of 31': ('if lasting && port.connected {', 'if (lasting || port.count == 31) && port.connected {'),
    'only a short event keeps the count': ('if lasting && port.connected {', 'if b.d >= self.short_below && port.connected {'),
    'a runt keeps the count, however long': ('if lasting && port.connected {\n                        self.ports[place].count = 0;', 'if lasting && port.connected {\n                        if b.n >= SMALLEST_FRAME { self.ports[place].count = 0; }'),
    'a frame with bad FCS keeps the count': ('if lasting && port.connected {\n                        self.ports[place].count = 0;', 'if lasting && port.connected {\n                        if !b.fcs_bad { self.ports[place].count = 0; }'),
    'only data sent zeroes the count': ('if lasting && port.connected {\n                        self.ports[place].count = 0;', 'if lasting && port.connected {\n                        if sent_data { self.ports[place].count = 0; }'),
    'only own activity zeroes the count': ('if lasting && port.connected {\n                        self.ports[place].count = 0;', 'if lasting && port.connected {\n                        if !sent_data { self.ports[place].count = 0; }'),
    'alternate narrows zeroing': ('if lasting && port.connected {\n                        self.ports[place].count = 0;', 'if lasting && port.connected {\n                        if sent_data || !alternate { self.ports[place].count = 0; }'),
    "a short collision isn't counted": ('if !port.connected {\n                        continue;', 'if !port.connected || b.d <= LASTING_ABOVE {\n                        continue;'),
    'alternate never reconnects': ('&& (sent_data || !alternate)', '&& !alternate'),
    'alternate like standard': ('&& (sent_data || !alternate)', ''),
    'standard by sending alone': ('&& (sent_data || !alternate)', '&& sent_data'),
    'alternate of AUI does nothing': ('Command::AlternateAui => self.alternate_aui = true,', 'Command::AlternateAui => {}'),
    'alternates swapped': ('if place == AUI { self.alternate_aui } else { self.alternate_tp }', 'if place != AUI { self.alternate_aui } else { self.alternate_tp }'),
    'count kept when partitioned': ('self.ports[place].connected = false;\n                        self.ports[place].count = 0;', 'self.ports[place].connected = false;\n                        self.ports[place].count = 1;'),
    'long collision not credited': ('self.credit(place, AUTO_PARTITIONS, 1);', 'if b.x <= LONG_COLLISION_ABOVE { self.credit(place, AUTO_PARTITIONS, 1); }'),
    'reconnecting sets no change': ('(sent_data || !alternate) {\n                        self.ports[place].connected = true;\n                        self.mark(PARTITION_CHANGE, place);', '(sent_data || !alternate) {\n                        self.ports[place].connected = true;'),
    'partitioning sets no change': ('self.credit(place, AUTO_PARTITIONS, 1);\n                        self.mark(PARTITION_CHANGE, place);', 'self.credit(place, AUTO_PARTITIONS, 1);'),
    'ports outside T count': ('if scene.sendable & bit == 0 {\n                    continue;', 'if scene.sendable & bit == 0 {\n                    if scene.active & bit != 0 && scene.word == Word::Rep { self.ports[place].count = 0; }\n                    continue;'),
    'ports outside T reconnect': ('if scene.sendable & bit == 0 {\n                    continue;', 'if scene.sendable & bit == 0 {\n                    if scene.active & bit != 0 && b.d > 512 { self.ports[place].connected = true; }\n                    continue;'),
    'link failure reconnects': ('self.ports[place].passing = passing;', 'self.ports[place].passing = passing; if !passing { self.ports[place].connected = true; }'),
    'link failure zeroes the count': ('self.ports[place].passing = passing;', 'self.ports[place].passing = passing; if !passing { self.ports[place].count = 0; }'),
    # link
    'link sets no change': ('self.mark(LINK_CHANGE, place);', ''),
    'burst leaves idle': ('if mask >> place & 1 == 1 && self.ports[place].link_test {\n                    self.ports[place].idle = 0;', 'if mask >> place & 1 == 1 && self.ports[place].link_test {'),
    'pulse leaves idle': ('self.ports[place].idle = 0;\n                if !self.ports[place].passing {', 'if !self.ports[place].passing {'),
    'pulse leaves idle in pass': ('self.ports[place].idle = 0;\n                if !self.ports[place].passing {', 'if !self.ports[place].passing { self.ports[place].idle = 0; }\n                if !self.ports[place].passing {'),
    'pulse leaves idle in fail': ('self.ports[place].idle = 0;\n                if !self.ports[place].passing {', 'if self.ports[place].passing { self.ports[place].idle = 0; }\n                if !self.ports[place].passing {'),
    'silence leaves pulses': ('self.ports[place].idle = 0;\n                    self.ports[place].pulses = 0;\n                    self.set_link(place, false);\n                }\n            }\n            Answer::Done', 'self.ports[place].idle = 0;\n                    self.set_link(place, false);\n                }\n            }\n            Answer::Done'),
    'silence not counted in fail': ('self.ports[place].idle += 1;', 'if !self.ports[place].passing { continue; } self.ports[place].idle += 1;'),
    'disabled port deaf to pulses': ('if mask >> place & 1 == 0 || !self.ports[place].link_test {', 'if mask >> place & 1 == 0 || !self.ports[place].link_test || !self.ports[place].enabled {'),
    'disabled port deaf to bursts': ('if mask >> place & 1 == 1 && self.ports[place].link_test {', 'if mask >> place & 1 == 1 && self.ports[place].link_test && self.ports[place].enabled {'),
    'disabled port out of time': ('if !self.ports[place].link_test {\n                    continue;\n                }\n                self.ports[place].idle += 1;', 'if !self.ports[place].link_test || !self.ports[place].enabled {\n                    continue;\n                }\n                self.ports[place].idle += 1;'),
    'link test off still ticks': ('if !self.ports[place].link_test {\n                    continue;\n                }\n                self.ports[place].idle += 1;', 'self.ports[place].idle += 1;'),
    # commands
    'disable leaves the partition': ('if !self.ports[place].connected {\n                        self.ports[place].connected = true;\n                        self.mark(PARTITION_CHANGE, place);\n                    }', ''),
    'disable sets no change': ('self.ports[place].connected = true;\n                        self.mark(PARTITION_CHANGE, place);\n                    }\n                }\n                Command::Enable', 'self.ports[place].connected = true;\n                    }\n                }\n                Command::Enable'),
    'disable keeps the count': ('self.ports[place].enabled = false;\n                    self.ports[place].count = 0;', 'self.ports[place].enabled = false;'),
    'enable leaves the link': ('self.ports[place].enabled = true;\n                    if self.ports[place].link_test {', 'self.ports[place].enabled = true;\n                    if false {'),
    'enable fails a link not tested': ('self.ports[place].enabled = true;\n                    if self.ports[place].link_test {', 'self.ports[place].enabled = true;\n                    if place != AUI {'),
    'enable keeps pulses': ('self.ports[place].idle = 0;\n                        self.ports[place].pulses = 0;\n                        self.set_link(place, false);', 'self.ports[place].idle = 0;\n                        self.set_link(place, false);'),
    'enable again fails the link': ('Command::Enable(place) if !self.ports[place].enabled => {', 'Command::Enable(place) => {'),
    'test off keeps a failed link': ('self.ports[place].link_test = false;\n                    self.ports[place].idle = 0;\n                    self.ports[place].pulses = 0;\n                    self.set_link(place, true);', 'self.ports[place].link_test = false;\n                    self.ports[place].idle = 0;\n                    self.ports[place].pulses = 0;'),
    'test off keeps idle': ('self.ports[place].link_test = false;\n                    self.ports[place].idle = 0;', 'self.ports[place].link_test = false;'),
    'test on again starts anew': ('Command::LinkTestOn(place) => self.ports[place].link_test = true,', 'Command::LinkTestOn(place) => { self.ports[place].link_test = true; self.ports[place].idle = 0; }'),
    'test on starts in fail': ('Command::LinkTestOn(place) => self.ports[place].link_test = true,', 'Command::LinkTestOn(place) => { if !self.ports[place].link_test { self.set_link(place, false); } self.ports[place].link_test = true; }'),
    '8B clears B': ('0b1000_1011 => Command::AuiStatus { clear_b: false, clear_sl: true }', '0b1000_1011 => Command::AuiStatus { clear_b: true, clear_sl: true }'),
    '8D clears S and L': ('0b1000_1101 => Command::AuiStatus { clear_b: true, clear_sl: false }', '0b1000_1101 => Command::AuiStatus { clear_b: true, clear_sl: true }'),
    '89 clears B': ('0b1000_1001 => Command::AuiStatus { clear_b: false, clear_sl: false }', '0b1000_1001 => Command::AuiStatus { clear_b: true, clear_sl: false }'),
    '8F keeps B': ('0b1000_1111 => Command::AuiStatus { clear_b: true, clear_sl: true }', '0b1000_1111 => Command::AuiStatus { clear_b: false, clear_sl: true }'),
    'L kept by all': ('self.loopback_error = false;\n                    }', '}'),
    '8F clears the TP rate errors': ('self.rate_errors &= !AUI_BIT;', 'self.rate_errors = 0;'),
    'A0 keeps': ('self.rate_errors &= AUI_BIT;', ''),
    'A0 clears B': ('self.rate_errors &= AUI_BIT;', 'self.rate_errors = 0;'),
    'F0 keeps': ('self.mjlp = false;\n', '\n'),
    'version 0': ('_ => 0b0000_0001,', '_ => 0,'),
    'R 28 gives 0': ('Register::Version => wide(1)', 'Register::Version => wide(0)'),
    'P upside down': ('(self.ports[AUI].connected as u8) << 7', '(!self.ports[AUI].connected as u8) << 7'),
    'S and L exchanged': ('(self.sqe_test as u8) << 5\n                        | (self.loopback_error as u8) << 4', '(self.sqe_test as u8) << 4\n                        | (self.loopback_error as u8) << 5'),
    'polarity command taken': ('0b1101_0000 => Command::Links,', '0b1101_0000 | 0b1110_0000 => Command::Links,'),
    '28 disables TP0': ('0b0010_0000..=0b0010_0111 =>', '0b0010_0000..=0b0010_1000 =>'),
    'Get through S not carried out': ('if is_get(byte) {\n                self.got = self.get(command);', 'if is_get(byte) {\n                if register == Register::Get { self.got = self.get(command); }'),
    'Get through S leaves G': ('self.got = self.get(command);', 'let value = self.get(command); if register == Register::Get { self.got = value; }'),
    'Set through G not carried out': ('} else {\n                self.set(command);', '} else if register == Register::Set {\n                self.set(command);'),
    'Set zeroes G': ('self.set(command);', 'self.set(command); self.got = 0;'),
    'Get through S no error': ('if is_get(byte) != (register == Register::Get) {', 'if !is_get(byte) && register == Register::Get {'),
    'Set through G no error': ('if is_get(byte) != (register == Register::Get) {', 'if is_get(byte) && register == Register::Set {'),
    # host
    'R 12 and R 13 swapped': ('(0, 12) => Register::TransmitCollisions,\n            (0, 13) => Register::TotalOctets,', '(0, 13) => Register::TransmitCollisions,\n            (0, 12) => Register::TotalOctets,'),
    'SQE Test at R 5': ('(1, 0..=4 | 6 | 7)', '(1, 0..=3 | 5..=7)'),
    'R 13 of a bank listed': ('(16..=23 | 31, 0..=12)', '(16..=23 | 31, 0..=12 | 15)'),
    'bank 30 listed': ('(16..=23 | 31, 14) => Register::Address(bank_port(p))', '(16..=23 | 31, 14) => Register::Address(bank_port(p)), (30, 14) => Register::Address(AUI)'),
    'a refused read clears a change register': ('return Answer::Refused(5);\n            };\n            if register == Register::Set {', 'if self.host.p == 1 { self.changes[4] = 0; }\n                return Answer::Refused(5);\n            };\n            if register == Register::Set {'),
    'a refused write clears a change register': ('Some(_) => return Answer::Refused(6),', 'Some(Register::Change(r)) => { self.changes[r] = 0; return Answer::Refused(6); }\n                Some(_) => return Answer::Refused(6),'),
    'a refused write restarts the sequence': ('Some(_) => return Answer::Refused(6),', 'Some(_) => { self.host.place = 0; return Answer::Refused(6); }'),
    'a refused C write restarts the sequence': ('Err(number) => Answer::Refused(number),', 'Err(number) => { if number == 7 { self.host.place = 0; } Answer::Refused(number) }'),
    'S read gives a value': ('if register == Register::Set {\n                return Answer::Refused(6);\n            }', ''),
    'reading keeps the change bits': ('self.changes[r] = 0;\n            }', '}'),
    'interrupt without enable': ('self.changes[r] & self.enables[r] != 0', 'self.changes[r] != 0'),
    'interrupt of TP alone': ('(0..8).any(|r| self.changes', '[0, 2, 6].into_iter().any(|r: usize| self.changes'),
    'interrupt of R 0 by the enables of R 1': ('self.changes[r] & self.enables[r] != 0', 'self.changes[r] & self.enables[if r == 0 { 1 } else { r }] != 0'),
    'error raises the interrupt': ('let value = (self.interrupt() as u8) << 7', 'let value = ((self.interrupt() || self.interface_error) as u8) << 7'),
    'C read keeps the error': ('self.interface_error = false;\n            Answer::Value(value)', 'Answer::Value(value)'),
    'C read restarts the sequence': ('self.interface_error = false;\n            Answer::Value(value)', 'self.interface_error = false;\n            self.host.place = 0;\n            Answer::Value(value)'),
    'C write of P keeps the place': ('self.host.p = number;\n', 'self.host.p = number; return Answer::Done;\n'),
    'C write of the same keeps the place': ('let number = byte & 0b0001_1111;', 'let number = byte & 0b0001_1111;\n            if byte == self.host.p || byte == 0xe0 | self.host.r { return Answer::Done; }'),
    'bytes not from a copy': ('if place == 0 {\n                self.host.copy = self.content(register);\n            }', 'self.host.copy = self.content(register);'),
    'most significant byte first': ('Answer::Value(self.host.copy[place])', 'Answer::Value(self.host.copy[bytes_of(register) - 1 - place])'),
    'no restart after the last byte': ('if place + 1 == bytes_of(register) { 0 } else { place + 1 }', 'if place + 1 == bytes_of(register) { place } else { place + 1 }'),
    'reading goes on after writing': ('let place = if self.host.writing { 0 } else { self.host.place };\n            if place == 0 {', 'let place = self.host.place;\n            if place == 0 {'),
    'writing goes on after reading': ('let place = if self.host.writing { self.host.place } else { 0 };', 'let place = self.host.place;'),
    'address written at the fifth byte': ('if place + 1 == 6 {', 'if place + 1 == 5 { self.attributes.ports[port].address[..5].copy_from_slice(&self.host.copy[..5]); }\n            if place + 1 == 6 {'),
    'address written byte by byte': ('self.host.copy[place] = byte;', 'self.host.copy[place] = byte;\n            self.attributes.ports[port].address[place] = byte;'),
    'written address is a change': ('self.attributes.ports[port].address = self.host.copy;', 'self.attributes.ports[port].address = self.host.copy;\n                self.mark(ADDRESS_CHANGE, port);'),
    'enables keep other bits': ('self.enables[r] = byte & bits_of(r)', 'self.enables[r] = byte'),
    'AUI changes beside TP': ('self.changes[r + 1] |= 0x80;', 'self.changes[r] |= 0x80;'),
    'tick restarts the sequence': ('fn tick(&mut self) -> Answer {', 'fn tick(&mut self) -> Answer {\n            self.host.place = 0;'),
    'burst restarts the sequence': ('let scene = self.scene(b);', 'let scene = self.scene(b); self.host.place = 0;'),
    # reset
    'reset zeroes attributes': ('*self = Chip::fresh(self.attributes, self.short_below);', '*self = Chip::fresh(ZERO, self.short_below);'),
    'reset zeroes addresses': ('*self = Chip::fresh(self.attributes, self.short_below);', '*self = Chip::fresh(self.attributes, self.short_below); for port in self.attributes.ports.iter_mut() { port.address = [0; 6]; }'),
    'reset keeps enables': ('*self = Chip::fresh(self.attributes, self.short_below);', 'let kept = self.enables; *self = Chip::fresh(self.attributes, self.short_below); self.enables = kept;'),
    'reset keeps changes': ('*self = Chip::fresh(self.attributes, self.short_below);', 'let kept = self.changes; *self = Chip::fresh(self.attributes, self.short_below); self.changes = kept;'),
    'reset sets link changes': ('*self = Chip::fresh(self.attributes, self.short_below);', 'let links = self.get(Command::Links); *self = Chip::fresh(self.attributes, self.short_below); self.changes[2] = links;'),
    'reset keeps G': ('*self = Chip::fresh(self.attributes, self.short_below);', 'let kept = self.got; *self = Chip::fresh(self.attributes, self.short_below); self.got = kept;'),
    'reset keeps the selection': ('*self = Chip::fresh(self.attributes, self.short_below);', 'let kept = self.host; *self = Chip::fresh(self.attributes, self.short_below); self.host = kept;'),
    'reset keeps the alternate algorithm': ('*self = Chip::fresh(self.attributes, self.short_below);', 'let kept = self.alternate_tp; *self = Chip::fresh(self.attributes, self.short_below); self.alternate_tp = kept;'),
    'reset keeps the interface error': ('*self = Chip::fresh(self.attributes, self.short_below);', 'let kept = self.interface_error; *self = Chip::fresh(self.attributes, self.short_below); self.interface_error = kept;'),
    'reset keeps the status': ('*self = Chip::fresh(self.attributes, self.short_below);', 'let kept = (self.sqe_test, self.mjlp); *self = Chip::fresh(self.attributes, self.short_below); (self.sqe_test, self.mjlp) = kept;'),
    'reset keeps counts': ('*self = Chip::fresh(self.attributes, self.short_below);', 'let kept = self.ports; *self = Chip::fresh(self.attributes, self.short_below); for place in 0..PORTS { self.ports[place].count = kept[place].count; }'),
    'reset keeps pulses': ('*self = Chip::fresh(self.attributes, self.short_below);', 'let kept = self.ports; *self = Chip::fresh(self.attributes, self.short_below); for place in 0..TWISTED { self.ports[place].pulses = kept[place].pulses; }'),
    'reset keeps disabled ports': ('*self = Chip::fresh(self.attributes, self.short_below);', 'let kept = self.ports; *self = Chip::fresh(self.attributes, self.short_below); for place in 0..PORTS { self.ports[place].enabled = kept[place].enabled; }'),
}

ADDED = 'self.sum = self.sum.checked_add(difference(self.last, later) as u64)?;'

# the same in the sum of differences: pollers that are wrong
SUMMED = {
    'last minus first': (f'{ADDED}\n                self.last = later;', 'self.sum = difference(self.last, later) as u64;'),
    'a difference dropped when the later reading is smaller': (ADDED, f'if later >= self.last {{ {ADDED} }}'),
    'the sum modulo 2^32': (ADDED, 'self.sum = difference(self.last, later).wrapping_add(self.sum as u32) as u64;'),
    'the first reading added': ('Total { sum: 0, last: first }', 'Total { sum: first as u64, last: first }'),
    'later and earlier exchanged': (ADDED, ADDED.replace('self.last, later', 'later, self.last')),
    'every wrap counted a credit short': (ADDED, f'{ADDED} if later < self.last {{ self.sum -= 1; }}'),
}


def misadded(words):
    """The first list of readings by hand that this program adds up wrongly."""
    for readings, due in totals.VECTORS:
        if compare.run([*words, '--totals'], [totals.spelt(readings)]).lines != b'%d\n' % due:
            return f'readings {", ".join(map(str, readings))}'
    return None


class Traces:
    """The traces and the model's lines, made once and as far as they are wanted."""

    def __init__(self, folder, many, size):
        self.folder = folder
        self.many = many
        self.size = size
        self.made = []
        self.model = [str(program.model())]
        sheet = generate.sheet('limits')
        self.fixed = [(f'sheet-{name}', generate.sheet(name), generate.start(1)) for name in generate.SHEETS]
        self.fixed += [(f'limit-{limit}', sheet, generate.limited(generate.start(1), limit)) for limit in generate.LIMITS]
        self.fixed += [(f'refused-{number}', rec.SAMPLE, generate.limited(None, number)) for number in generate.REFUSED]
        self.fixed += [('535-bytes-and-no-zero', rec.SAMPLE, generate.limited(None, generate.USUAL, 1)),
                       ('534-bytes', rec.SAMPLE, generate.limited(None, generate.USUAL)[:-1])]

    def one(self, at):
        while at >= len(self.made):
            self.make(len(self.made))
        return self.made[at]

    def make(self, at):
        if at < len(self.fixed):
            name, data, start = self.fixed[at]
        else:
            seed = at - len(self.fixed)
            name, data, start = f'seed-{seed}', generate.trace(seed, self.size), generate.start(seed)
        words = []
        if start is not None:
            path = self.folder / f'{name}.start'
            path.write_bytes(start)
            words = [str(path)]
        self.made.append((name, data, words, compare.run(self.model + words, [data]).lines))

    def found(self, words):
        """The name of the first trace on which this program differs from the model."""
        for at in range(self.many + len(self.fixed)):
            name, data, start, want = self.one(at)
            if compare.run(words + start, [data]).lines != want:
                return name
        return None


def planted(source, name):
    """The model's source with one wrong rule, within the state machine alone."""
    texts = (PLANTED | SUMMED)[name]
    end = source.index('pub mod reached')
    machine, rest = source[:end], source[end:]
    for old, new in zip(texts[::2], texts[1::2]):
        times = machine.count(old)
        if times != 1:
            program.give_up(f"'{name}': its text stands {times} times in the model's state machine")
        machine = machine.replace(old, new)
    return machine + rest


def main():
    parser = argparse.ArgumentParser(description='Plants wrong rules in the model and sees whether they are found.')
    parser.add_argument('names', nargs='*', help='only these')
    parser.add_argument('--traces', type=int, default=800, help='seeds tried for each (default 800)')
    parser.add_argument('--records', type=int, default=3500, help='about how many records a trace (default 3500)')
    words = parser.parse_args()
    names = words.names or [*PLANTED, *SUMMED]
    source = program.SOURCE.read_text()
    copies = {name: planted(source, name) for name in names}
    missed = []
    with tempfile.TemporaryDirectory(prefix='mutants.') as folder:
        traces = Traces(Path(folder), words.traces, words.records)
        for turn, name in enumerate(names):
            path = Path(folder) / 'planted.rs'
            path.write_text(copies[name])
            built = program.rust(path, Path(folder) / 'planted', '-C', 'overflow-checks=off', '-A', 'warnings',
                                 '-C', f'incremental={folder}/kept')
            where = (misadded if name in SUMMED else traces.found)([str(built)])
            print(f'{turn + 1} of {len(names)}: {name}: {"found by " + where if where else "NOT FOUND"}', flush=True)
            if where is None:
                missed.append(name)
            built.unlink()
    print(f'{len(names) - len(missed)} passed, {len(missed)} failed')
    sys.exit(1 if missed else 0)


if __name__ == '__main__':
    main()
