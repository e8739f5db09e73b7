//! Document 01 once more, in plain Rust: a second reading to hold the proved program against.
//!
//! Written from document 01 alone (open points as docs/DECISIONS.md has them), never from the proved code, and
//! changed by what is requested later: Q-2, what zeroes the count of a connected port; Q-6, the short event limit is
//! given at power-up; Q-14, the sum of differences. `chip` is the state machine and does no input or output; `reached`
//! says what a trace has exercised; `paper` holds the tests, whose expected values stand in document 01, in Q-2, in Q-6
//! or in Q-14. Build with `rustc -O`.
//!
//!     model [--reached] [START] < TRACE
//!     model --export ATTRIBUTE [START] < TRACE
//!     model --credits [START] < TRACE
//!     model --totals < READINGS
//!
//! START: the counters and addresses at power-up, all zero without it, and perhaps the short event limit, 78 where
//! it says none (docs/REFERENCE.md, 'Start files'). A limit that is refused brings a line on standard error alone.
//! `--reached`: a line 'reached NAME TIMES' on standard error for each thing that a trace can reach, at the end.
//! `--export`: no answers, but the counters that the trace leaves, as CSV. ATTRIBUTE is a register number or `all`.
//! `--credits`: no answers, but the true number of credits of each counter since power-up, a line each.
//! `--totals`: the sum of the differences of readings, four bytes each, the least significant first.

pub mod chip {
    pub const PORTS: usize = 9;
    pub const TWISTED: usize = 8;
    pub const AUI: usize = 8;
    const AUI_BIT: u16 = 1 << AUI;

    pub const RECORD: usize = 32;
    pub const LONGEST_BURST: u32 = 1_000_000;
    /// The short event limit where nothing is said at power-up, and the least and the largest that there are (Q-6).
    pub const SHORT_BELOW: u32 = 78;
    pub const LEAST_LIMIT: u32 = 75;
    pub const LARGEST_LIMIT: u32 = 81;
    pub const SMALLEST_FRAME: u32 = 64;
    pub const LARGEST_FRAME: u32 = 1518;
    pub const LATE_ABOVE: u32 = 512;
    pub const VERY_LONG_ABOVE: u32 = 65_536;
    pub const MISMATCH_ABOVE: u32 = 552;
    pub const COLLISIONS_TO_PARTITION: u8 = 32;
    pub const LONG_COLLISION_ABOVE: u32 = 1024;
    /// A clean burst above this lasts: it zeroes a connected port's count and reconnects a partitioned port.
    pub const LASTING_ABOVE: u32 = 512;
    pub const TICKS_TO_FAIL: u8 = 100;
    pub const PULSES_TO_PASS: u8 = 4;
    pub const MOST_FRAMES: u32 = 2_829_359;

    // The attributes of a port by their register number R.
    pub const READABLE_FRAMES: usize = 0;
    pub const READABLE_OCTETS: usize = 1;
    pub const FCS_ERRORS: usize = 2;
    pub const ALIGNMENT_ERRORS: usize = 3;
    pub const FRAMES_TOO_LONG: usize = 4;
    pub const SHORT_EVENTS: usize = 5;
    pub const RUNTS: usize = 6;
    pub const COLLISIONS: usize = 7;
    pub const LATE_EVENTS: usize = 8;
    pub const VERY_LONG_EVENTS: usize = 9;
    pub const RATE_MISMATCHES: usize = 10;
    pub const AUTO_PARTITIONS: usize = 11;
    pub const ADDRESS_CHANGES: usize = 12;
    pub const COUNTERS: usize = 13;

    // The change registers of bank P 1 by R; the enables of bank P 2 have the same numbers.
    pub const PARTITION_CHANGE: usize = 0;
    pub const LINK_CHANGE: usize = 2;
    pub const LOOPBACK_ERROR: usize = 3;
    pub const SQE_TEST: usize = 4;
    pub const ADDRESS_CHANGE: usize = 6;

    // ---- the record

    #[derive(Clone, Copy, Debug)]
    pub struct Burst {
        pub fcs_bad: bool,
        pub rate_error: bool,
        pub aui_collision: bool,
        pub loopback_missing: bool,
        pub sqe_test: bool,
        pub mask: u16,
        pub d: u32,
        pub n: u32,
        pub k: u8,
        pub c: u32,
        pub x: u32,
        pub source: [u8; 6],
    }

    #[derive(Clone, Copy, Debug)]
    pub enum Record {
        Burst(Burst),
        Pulse(u8),
        Tick,
        CWrite(u8),
        DWrite(u8),
        CRead,
        DRead,
        Reset,
    }

    /// The bits of each byte that a kind has a use for; the others must be zero.
    const USED: [[u8; RECORD]; 9] = used();

    const fn used() -> [[u8; RECORD]; 9] {
        let mut table = [[0; RECORD]; 9];
        let mut kind = 1;
        while kind < 9 {
            table[kind][0] = 0xff;
            kind += 1;
        }
        let mut at = 2;
        while at < 30 {
            if at < 13 || at >= 16 {
                table[1][at] = 0xff;
            }
            at += 1;
        }
        table[1][1] = 0b0001_1111;
        table[2][2] = 0xff;
        table[2][3] = 0xff;
        table[4][13] = 0xff;
        table[5][13] = 0xff;
        table
    }

    /// The bits of byte `at` that must be zero in a record of this known kind.
    pub fn must_be_zero(kind: u8, at: usize) -> u8 {
        !USED[kind as usize][at]
    }

    pub fn number(bytes: &[u8], at: usize) -> u32 {
        u32::from_le_bytes([bytes[at], bytes[at + 1], bytes[at + 2], bytes[at + 3]])
    }

    /// What the bytes of a burst say, whether or not it is acceptable.
    pub fn burst_of(bytes: &[u8]) -> Burst {
        let flag = |bit: u8| bytes[1] >> bit & 1 == 1;
        Burst {
            fcs_bad: flag(0),
            rate_error: flag(1),
            aui_collision: flag(2),
            loopback_missing: flag(3),
            sqe_test: flag(4),
            mask: u16::from_le_bytes([bytes[2], bytes[3]]),
            d: number(bytes, 4),
            n: number(bytes, 8),
            k: bytes[12],
            c: number(bytes, 16),
            x: number(bytes, 20),
            source: [bytes[24], bytes[25], bytes[26], bytes[27], bytes[28], bytes[29]],
        }
    }

    /// Refusal 2 of a burst: true sums, so in 64 bits.
    pub fn out_of_range(b: &Burst) -> bool {
        let d = b.d as u64;
        b.d == 0
            || b.d > LONGEST_BURST
            || b.k > 7
            || 8 * b.n as u64 + b.k as u64 > d
            || b.c as u64 + b.x as u64 > d
    }

    /// The refusals that need no state: 9, 8, 3, 2, 1, 7.
    pub fn decode(bytes: &[u8]) -> Result<Record, u8> {
        if bytes.len() != RECORD {
            return Err(9);
        }
        let kind = bytes[0];
        if !(1..=8).contains(&kind) {
            return Err(8);
        }
        let mut stray = 0;
        for at in 0..RECORD {
            stray |= bytes[at] & must_be_zero(kind, at);
        }
        if stray != 0 {
            return Err(8);
        }
        match kind {
            1 => {
                let burst = burst_of(bytes);
                if burst.mask > 0x1ff {
                    return Err(3);
                }
                if out_of_range(&burst) {
                    return Err(2);
                }
                if burst.mask == 0 && !burst.aui_collision {
                    return Err(1);
                }
                Ok(Record::Burst(burst))
            }
            2 if bytes[3] != 0 => Err(3),
            2 => Ok(Record::Pulse(bytes[2])),
            3 => Ok(Record::Tick),
            4 => match bytes[13] >> 5 {
                0b000 | 0b111 => Ok(Record::CWrite(bytes[13])),
                _ => Err(7),
            },
            5 => Ok(Record::DWrite(bytes[13])),
            6 => Ok(Record::CRead),
            7 => Ok(Record::DRead),
            _ => Ok(Record::Reset),
        }
    }

    // ---- the management commands

    #[derive(Clone, Copy, PartialEq, Eq, Debug)]
    pub enum Command {
        AlternateAui,
        AlternateTp,
        Disable(usize),
        Enable(usize),
        LinkTestOff(usize),
        LinkTestOn(usize),
        /// PBSL0000; what of B and of S and L it clears
        AuiStatus {
            clear_b: bool,
            clear_sl: bool,
        },
        Partitions,
        RateErrors,
        Links,
        Mjlp,
        Version,
    }

    /// The listed command of a byte, if it has one.
    pub fn command_of(byte: u8) -> Option<Command> {
        let port = (byte & 7) as usize;
        Some(match byte {
            0b0001_1111 => Command::AlternateAui,
            0b0001_0000 => Command::AlternateTp,
            0b0010_1111 => Command::Disable(AUI),
            0b0011_1111 => Command::Enable(AUI),
            0b0010_0000..=0b0010_0111 => Command::Disable(port),
            0b0011_0000..=0b0011_0111 => Command::Enable(port),
            0b0100_0000..=0b0100_0111 => Command::LinkTestOff(port),
            0b0101_0000..=0b0101_0111 => Command::LinkTestOn(port),
            0b1000_1111 => Command::AuiStatus { clear_b: true, clear_sl: true },
            0b1000_1011 => Command::AuiStatus { clear_b: false, clear_sl: true },
            0b1000_1101 => Command::AuiStatus { clear_b: true, clear_sl: false },
            0b1000_1001 => Command::AuiStatus { clear_b: false, clear_sl: false },
            0b1000_0000 => Command::Partitions,
            0b1010_0000 => Command::RateErrors,
            0b1101_0000 => Command::Links,
            0b1111_0000 => Command::Mjlp,
            0b1111_1111 => Command::Version,
            _ => return None,
        })
    }

    /// A command with top bit 0 sets, one with top bit 1 gets.
    pub fn is_get(byte: u8) -> bool {
        byte & 0x80 != 0
    }

    // ---- the registers

    #[derive(Clone, Copy, PartialEq, Eq, Debug)]
    pub enum Register {
        TransmitCollisions,
        TotalOctets,
        Version,
        Set,
        Get,
        Change(usize),
        Enables(usize),
        Counter(usize, usize),
        Address(usize),
    }

    fn bank_port(p: u8) -> usize {
        if p == 31 {
            AUI
        } else {
            (p - 16) as usize
        }
    }

    /// The listed register of a bank P and a number R, if there is one.
    pub fn register_of(p: u8, r: u8) -> Option<Register> {
        let at = r as usize;
        Some(match (p, r) {
            (0, 12) => Register::TransmitCollisions,
            (0, 13) => Register::TotalOctets,
            (0, 28) => Register::Version,
            (0, 30) => Register::Set,
            (0, 31) => Register::Get,
            (1, 0..=4 | 6 | 7) => Register::Change(at),
            (2, 0..=4 | 6 | 7) => Register::Enables(at),
            (16..=23 | 31, 0..=12) => Register::Counter(bank_port(p), at),
            (16..=23 | 31, 14) => Register::Address(bank_port(p)),
            _ => return None,
        })
    }

    /// How many bytes a register has.
    pub fn bytes_of(register: Register) -> usize {
        match register {
            Register::TransmitCollisions | Register::TotalOctets | Register::Counter(..) => 4,
            Register::Address(_) => 6,
            _ => 1,
        }
    }

    /// The bits that a change register or its enables have: all eight for TP, bit 7 for AUI alone.
    pub fn bits_of(r: usize) -> u8 {
        match r {
            0 | 2 | 6 => 0xff,
            _ => 0x80,
        }
    }

    // ---- the state

    #[derive(Clone, Copy, PartialEq, Eq, Debug)]
    pub struct Port {
        pub enabled: bool,
        pub connected: bool,
        pub count: u8,
        /// AUI has no link: its test is off and it passes, always.
        pub link_test: bool,
        pub passing: bool,
        pub idle: u8,
        pub pulses: u8,
    }

    #[derive(Clone, Copy, PartialEq, Eq, Debug)]
    pub struct PortAttributes {
        pub counters: [u32; COUNTERS],
        pub address: [u8; 6],
    }

    #[derive(Clone, Copy, PartialEq, Eq, Debug)]
    pub struct Attributes {
        pub ports: [PortAttributes; PORTS],
        pub transmit_collisions: u32,
        pub total_octets: u32,
    }

    pub const ZERO: Attributes = Attributes {
        ports: [PortAttributes { counters: [0; COUNTERS], address: [0; 6] }; PORTS],
        transmit_collisions: 0,
        total_octets: 0,
    };

    #[derive(Clone, Copy, PartialEq, Eq, Debug)]
    pub struct Host {
        pub p: u8,
        pub r: u8,
        pub copy: [u8; 6],
        pub place: usize,
        pub writing: bool,
    }

    #[derive(Clone, PartialEq, Eq, Debug)]
    pub struct Chip {
        pub ports: [Port; PORTS],
        pub alternate_tp: bool,
        pub alternate_aui: bool,
        /// bits 0 to 7: bit rate errors of TP; bit 8: B
        pub rate_errors: u16,
        pub sqe_test: bool,
        pub loopback_error: bool,
        pub mjlp: bool,
        pub attributes: Attributes,
        /// the short event limit: as power-up was given it, for good
        pub short_below: u32,
        pub changes: [u8; 8],
        pub enables: [u8; 8],
        pub interface_error: bool,
        pub got: u8,
        pub host: Host,
    }

    #[derive(Clone, Copy, PartialEq, Eq, Debug)]
    pub enum Word {
        Nil,
        Rep,
        Jam,
    }

    #[derive(Clone, Copy, PartialEq, Eq, Debug)]
    pub enum Answer {
        Burst(Word, u16),
        Value(u8),
        Done,
        Refused(u8),
    }

    /// What a burst meets, taken before it: active (E), sendable (T), listened (L), heard (H).
    #[derive(Clone, Copy, PartialEq, Eq, Debug)]
    pub struct Scene {
        pub active: u16,
        pub sendable: u16,
        pub listened: u16,
        pub heard: u16,
        pub word: Word,
        pub out: u16,
        pub collided: u16,
        /// two or more heard, or AUI alone with its collision signal
        pub collision: bool,
    }

    impl Chip {
        /// A chip at power-up, or 13 and none.
        pub fn power_up(attributes: Attributes, limit: u32) -> Result<Chip, u8> {
            if limit < LEAST_LIMIT || limit > LARGEST_LIMIT {
                return Err(13);
            }
            Ok(Chip::fresh(attributes, limit))
        }

        /// What power-up and a reset leave, over what survives a reset.
        pub fn fresh(attributes: Attributes, short_below: u32) -> Chip {
            let twisted = Port {
                enabled: true,
                connected: true,
                count: 0,
                link_test: true,
                passing: false,
                idle: 0,
                pulses: 0,
            };
            let mut ports = [twisted; PORTS];
            ports[AUI].link_test = false;
            ports[AUI].passing = true;
            Chip {
                ports,
                alternate_tp: false,
                alternate_aui: false,
                rate_errors: 0,
                sqe_test: false,
                loopback_error: false,
                mjlp: false,
                attributes,
                short_below,
                changes: [0; 8],
                enables: [0; 8],
                interface_error: false,
                got: 0,
                host: Host { p: 0, r: 0, copy: [0; 6], place: 0, writing: false },
            }
        }

        /// One record. A refusal changes nothing.
        pub fn step(&mut self, bytes: &[u8]) -> Answer {
            match decode(bytes) {
                Err(number) => Answer::Refused(number),
                Ok(Record::Burst(burst)) => self.burst(&burst),
                Ok(Record::Pulse(mask)) => self.pulse(mask),
                Ok(Record::Tick) => self.tick(),
                Ok(Record::CWrite(byte)) => self.c_write(byte),
                Ok(Record::DWrite(byte)) => self.d_write(byte),
                Ok(Record::CRead) => self.c_read(),
                Ok(Record::DRead) => self.d_read(),
                Ok(Record::Reset) => {
                    *self = Chip::fresh(self.attributes, self.short_below);
                    Answer::Done
                }
            }
        }

        /// A change of one port, in the register of its kind: TP at `r`, AUI at the next one.
        fn mark(&mut self, r: usize, port: usize) {
            if port == AUI {
                self.changes[r + 1] |= 0x80;
            } else {
                self.changes[r] |= 1 << port;
            }
        }

        // ---- burst

        pub fn scene(&self, b: &Burst) -> Scene {
            let mut sendable = 0;
            let mut listened = 0;
            for (place, port) in self.ports.iter().enumerate() {
                if port.enabled && port.passing {
                    sendable |= 1 << place;
                    if port.connected {
                        listened |= 1 << place;
                    }
                }
            }
            let signal = if b.aui_collision { AUI_BIT } else { 0 };
            let active = b.mask | signal;
            let heard = active & listened;
            let ones = heard.count_ones();
            let aui_alone = heard == AUI_BIT && b.aui_collision;
            let collision = ones >= 2 || aui_alone;
            let (word, out) = match ones {
                0 => (Word::Nil, 0),
                1 if aui_alone || b.rate_error => (Word::Jam, sendable & !heard),
                1 => (Word::Rep, sendable & !heard),
                _ => (Word::Jam, sendable),
            };
            let collided = if collision {
                active & sendable
            } else if ones == 1 {
                active & sendable & !heard
            } else {
                signal & sendable
            };
            Scene { active, sendable, listened, heard, word, out, collided, collision }
        }

        fn burst(&mut self, b: &Burst) -> Answer {
            let scene = self.scene(b);
            self.status(b, &scene);
            self.credits(b, &scene);
            self.partition(b, &scene);
            self.activity(b.mask);
            Answer::Burst(scene.word, scene.out)
        }

        fn status(&mut self, b: &Burst, scene: &Scene) {
            if b.rate_error && scene.heard.count_ones() == 1 {
                self.rate_errors |= scene.heard;
            }
            if b.sqe_test {
                self.sqe_test = true;
                self.changes[SQE_TEST] |= 0x80;
            }
            if b.loopback_missing && scene.out & AUI_BIT != 0 {
                self.loopback_error = true;
                self.changes[LOOPBACK_ERROR] |= 0x80;
            }
            if b.d > VERY_LONG_ABOVE && scene.out != 0 {
                self.mjlp = true;
            }
        }

        fn credit(&mut self, port: usize, counter: usize, amount: u32) {
            let value = &mut self.attributes.ports[port].counters[counter];
            *value = value.wrapping_add(amount);
        }

        fn credits(&mut self, b: &Burst, scene: &Scene) {
            let ones = scene.heard.count_ones();
            if ones >= 2 {
                self.attributes.transmit_collisions = self.attributes.transmit_collisions.wrapping_add(1);
            }
            if ones == 1 && !scene.collision {
                self.credit_single(b, scene.heard.trailing_zeros() as usize);
            }
            let mut rest = scene.heard;
            while rest != 0 {
                let port = rest.trailing_zeros() as usize;
                rest &= rest - 1;
                if scene.collision {
                    self.credit(port, COLLISIONS, 1);
                    if b.c > LATE_ABOVE {
                        self.credit(port, LATE_EVENTS, 1);
                    }
                }
                if b.d > VERY_LONG_ABOVE {
                    self.credit(port, VERY_LONG_EVENTS, 1);
                }
            }
        }

        fn credit_single(&mut self, b: &Burst, port: usize) {
            let class = if b.d < self.short_below {
                SHORT_EVENTS
            } else if b.n < SMALLEST_FRAME {
                RUNTS
            } else if b.n > LARGEST_FRAME {
                FRAMES_TOO_LONG
            } else if b.fcs_bad && b.k > 0 {
                ALIGNMENT_ERRORS
            } else if b.fcs_bad {
                FCS_ERRORS
            } else {
                READABLE_FRAMES
            };
            self.credit(port, class, 1);
            if class == READABLE_FRAMES {
                self.credit(port, READABLE_OCTETS, b.n);
                self.attributes.total_octets = self.attributes.total_octets.wrapping_add(b.n);
                if self.attributes.ports[port].address != b.source {
                    self.attributes.ports[port].address = b.source;
                    self.credit(port, ADDRESS_CHANGES, 1);
                    self.mark(ADDRESS_CHANGE, port);
                }
            }
            if b.rate_error && b.d > MISMATCH_ABOVE {
                self.credit(port, RATE_MISMATCHES, 1);
            }
        }

        /// Each port of T: a collision is counted; a clean burst that lasts zeroes the count or reconnects, and a
        /// shorter one does neither (Q-2). The alternate algorithm narrows reconnecting alone.
        fn partition(&mut self, b: &Burst, scene: &Scene) {
            for place in 0..PORTS {
                let bit = 1 << place;
                if scene.sendable & bit == 0 {
                    continue;
                }
                let port = self.ports[place];
                let sent_data = scene.word == Word::Rep && scene.out & bit != 0;
                if scene.collided & bit != 0 {
                    if !port.connected {
                        continue;
                    }
                    self.ports[place].count = port.count + 1;
                    if port.count + 1 == COLLISIONS_TO_PARTITION || b.x > LONG_COLLISION_ABOVE {
                        self.ports[place].connected = false;
                        self.ports[place].count = 0;
                        self.credit(place, AUTO_PARTITIONS, 1);
                        self.mark(PARTITION_CHANGE, place);
                    }
                } else if scene.word != Word::Jam && (scene.active & bit != 0 || sent_data) {
                    let alternate = if place == AUI { self.alternate_aui } else { self.alternate_tp };
                    let lasting = b.d > LASTING_ABOVE;
                    if lasting && port.connected {
                        self.ports[place].count = 0;
                    } else if lasting && (sent_data || !alternate) {
                        self.ports[place].connected = true;
                        self.mark(PARTITION_CHANGE, place);
                    }
                }
            }
        }

        // ---- link

        fn set_link(&mut self, place: usize, passing: bool) {
            if self.ports[place].passing != passing {
                self.ports[place].passing = passing;
                self.mark(LINK_CHANGE, place);
            }
        }

        /// The mask bits of a burst, after it.
        fn activity(&mut self, mask: u16) {
            for place in 0..TWISTED {
                if mask >> place & 1 == 1 && self.ports[place].link_test {
                    self.ports[place].idle = 0;
                    self.ports[place].pulses = 0;
                    self.set_link(place, true);
                }
            }
        }

        fn pulse(&mut self, mask: u8) -> Answer {
            for place in 0..TWISTED {
                if mask >> place & 1 == 0 || !self.ports[place].link_test {
                    continue;
                }
                self.ports[place].idle = 0;
                if !self.ports[place].passing {
                    self.ports[place].pulses += 1;
                    if self.ports[place].pulses == PULSES_TO_PASS {
                        self.ports[place].pulses = 0;
                        self.set_link(place, true);
                    }
                }
            }
            Answer::Done
        }

        fn tick(&mut self) -> Answer {
            for place in 0..TWISTED {
                if !self.ports[place].link_test {
                    continue;
                }
                self.ports[place].idle += 1;
                if self.ports[place].idle == TICKS_TO_FAIL {
                    self.ports[place].idle = 0;
                    self.ports[place].pulses = 0;
                    self.set_link(place, false);
                }
            }
            Answer::Done
        }

        // ---- commands

        fn command(&mut self, byte: u8, register: Register) -> Answer {
            let Some(command) = command_of(byte) else {
                return Answer::Refused(4);
            };
            if is_get(byte) {
                self.got = self.get(command);
            } else {
                self.set(command);
            }
            if is_get(byte) != (register == Register::Get) {
                self.interface_error = true;
            }
            Answer::Done
        }

        fn set(&mut self, command: Command) {
            match command {
                Command::AlternateAui => self.alternate_aui = true,
                Command::AlternateTp => self.alternate_tp = true,
                Command::Disable(place) if self.ports[place].enabled => {
                    self.ports[place].enabled = false;
                    self.ports[place].count = 0;
                    if !self.ports[place].connected {
                        self.ports[place].connected = true;
                        self.mark(PARTITION_CHANGE, place);
                    }
                }
                Command::Enable(place) if !self.ports[place].enabled => {
                    self.ports[place].enabled = true;
                    if self.ports[place].link_test {
                        self.ports[place].idle = 0;
                        self.ports[place].pulses = 0;
                        self.set_link(place, false);
                    }
                }
                Command::LinkTestOff(place) if self.ports[place].link_test => {
                    self.ports[place].link_test = false;
                    self.ports[place].idle = 0;
                    self.ports[place].pulses = 0;
                    self.set_link(place, true);
                }
                Command::LinkTestOn(place) => self.ports[place].link_test = true,
                _ => {}
            }
        }

        fn get(&mut self, command: Command) -> u8 {
            match command {
                Command::AuiStatus { clear_b, clear_sl } => {
                    let b = self.rate_errors & AUI_BIT != 0;
                    let value = (self.ports[AUI].connected as u8) << 7
                        | (b as u8) << 6
                        | (self.sqe_test as u8) << 5
                        | (self.loopback_error as u8) << 4;
                    if clear_b {
                        self.rate_errors &= !AUI_BIT;
                    }
                    if clear_sl {
                        self.sqe_test = false;
                        self.loopback_error = false;
                    }
                    value
                }
                Command::Partitions => self.twisted(|port| port.connected),
                Command::Links => self.twisted(|port| port.passing),
                Command::RateErrors => {
                    let value = (self.rate_errors & 0xff) as u8;
                    self.rate_errors &= AUI_BIT;
                    value
                }
                Command::Mjlp => {
                    let value = (self.mjlp as u8) << 7;
                    self.mjlp = false;
                    value
                }
                _ => 0b0000_0001,
            }
        }

        /// A byte with a bit for each TP port.
        fn twisted(&self, holds: fn(&Port) -> bool) -> u8 {
            let mut value = 0;
            for place in 0..TWISTED {
                value |= (holds(&self.ports[place]) as u8) << place;
            }
            value
        }

        // ---- host

        pub fn interrupt(&self) -> bool {
            (0..8).any(|r| self.changes[r] & self.enables[r] != 0)
        }

        fn c_write(&mut self, byte: u8) -> Answer {
            let number = byte & 0b0001_1111;
            if byte >> 5 == 0 {
                self.host.p = number;
            } else {
                self.host.r = number;
            }
            self.host.place = 0;
            Answer::Done
        }

        fn c_read(&mut self) -> Answer {
            let value = (self.interrupt() as u8) << 7 | (self.interface_error as u8) << 6;
            self.interface_error = false;
            Answer::Value(value)
        }

        /// A register's present content, least significant byte first.
        pub fn content(&self, register: Register) -> [u8; 6] {
            let wide = |value: u32| {
                let b = value.to_le_bytes();
                [b[0], b[1], b[2], b[3], 0, 0]
            };
            match register {
                Register::TransmitCollisions => wide(self.attributes.transmit_collisions),
                Register::TotalOctets => wide(self.attributes.total_octets),
                Register::Version => wide(1),
                Register::Set => wide(0),
                Register::Get => wide(self.got as u32),
                Register::Change(r) => wide(self.changes[r] as u32),
                Register::Enables(r) => wide(self.enables[r] as u32),
                Register::Counter(port, r) => wide(self.attributes.ports[port].counters[r]),
                Register::Address(port) => self.attributes.ports[port].address,
            }
        }

        fn d_read(&mut self) -> Answer {
            let Some(register) = register_of(self.host.p, self.host.r) else {
                return Answer::Refused(5);
            };
            if register == Register::Set {
                return Answer::Refused(6);
            }
            let place = if self.host.writing { 0 } else { self.host.place };
            if place == 0 {
                self.host.copy = self.content(register);
            }
            if let Register::Change(r) = register {
                self.changes[r] = 0;
            }
            self.host.writing = false;
            self.host.place = if place + 1 == bytes_of(register) { 0 } else { place + 1 };
            Answer::Value(self.host.copy[place])
        }

        fn d_write(&mut self, byte: u8) -> Answer {
            match register_of(self.host.p, self.host.r) {
                None => return Answer::Refused(5),
                Some(register @ (Register::Set | Register::Get)) => return self.command(byte, register),
                Some(Register::Enables(r)) => self.enables[r] = byte & bits_of(r),
                Some(Register::Address(port)) => self.write_address(port, byte),
                Some(_) => return Answer::Refused(6),
            }
            Answer::Done
        }

        fn write_address(&mut self, port: usize, byte: u8) {
            let place = if self.host.writing { self.host.place } else { 0 };
            self.host.writing = true;
            self.host.copy[place] = byte;
            self.host.place = place + 1;
            if place + 1 == 6 {
                self.host.place = 0;
                self.attributes.ports[port].address = self.host.copy;
            }
        }
    }

    // ---- what a manager works out from two readings

    pub fn difference(earlier: u32, later: u32) -> u32 {
        later.wrapping_sub(earlier)
    }

    /// The octet check over the differences of frames and of octets; 10 where it can't tell.
    pub fn octet_check(frames: u32, octets: u32) -> Result<bool, u8> {
        if frames > MOST_FRAMES {
            return Err(10);
        }
        let (frames, octets) = (frames as u64, octets as u64);
        Ok(64 * frames <= octets && octets <= 1518 * frames)
    }

    // ---- what a manager works out from many readings

    /// The sum of the differences of readings in a row, and the last of them.
    #[derive(Clone, Copy, PartialEq, Eq, Debug)]
    pub struct Total {
        pub sum: u64,
        pub last: u32,
    }

    impl Total {
        /// One reading differs from none before it.
        pub fn begun(first: u32) -> Total {
            Total { sum: 0, last: first }
        }

        /// The same with further readings, four bytes each, or None where 64 bits don't hold the sum.
        pub fn with(mut self, readings: &[u8]) -> Option<Total> {
            for bytes in readings.chunks_exact(4) {
                let later = number(bytes, 0);
                self.sum = self.sum.checked_add(difference(self.last, later) as u64)?;
                self.last = later;
            }
            Some(self)
        }
    }

    /// True numbers of credits, apart from the counters, which wrap.
    pub struct Credits {
        pub ports: [[u64; COUNTERS]; PORTS],
        pub transmit_collisions: u64,
        pub total_octets: u64,
    }

    impl Credits {
        pub const NONE: Credits =
            Credits { ports: [[0; COUNTERS]; PORTS], transmit_collisions: 0, total_octets: 0 };

        /// Takes over what the counters hold and leaves them at zero, so that they never hold more than one record
        /// has credited. No rule asks what a counter holds.
        pub fn take_over(&mut self, counters: &mut Attributes) {
            for (credits, port) in self.ports.iter_mut().zip(&mut counters.ports) {
                for (credit, counter) in credits.iter_mut().zip(&mut port.counters) {
                    *credit += std::mem::take(counter) as u64;
                }
            }
            self.transmit_collisions += std::mem::take(&mut counters.transmit_collisions) as u64;
            self.total_octets += std::mem::take(&mut counters.total_octets) as u64;
        }
    }

    // ---- the start file and the printed line

    pub const START_BYTES: usize = PORTS * (4 * COUNTERS + 6) + 8;
    /// With the limit's four bytes, and one that is zero.
    pub const LONG_START_BYTES: usize = START_BYTES + 5;

    /// What a start file gives to power-up.
    #[derive(Clone, Copy, PartialEq, Eq, Debug)]
    pub struct Start {
        pub attributes: Attributes,
        pub limit: u32,
    }

    pub const NOTHING: Start = Start { attributes: ZERO, limit: SHORT_BELOW };

    /// What a start file holds, if it has one of the two forms.
    pub fn start_of(bytes: &[u8]) -> Option<Start> {
        let limit = match bytes.len() {
            START_BYTES => SHORT_BELOW,
            LONG_START_BYTES if bytes[START_BYTES + 4] == 0 => number(bytes, START_BYTES),
            _ => return None,
        };
        let mut attributes = ZERO;
        let mut at = 0;
        for port in attributes.ports.iter_mut() {
            for counter in port.counters.iter_mut() {
                *counter = number(bytes, at);
                at += 4;
            }
            port.address.copy_from_slice(&bytes[at..at + 6]);
            at += 6;
        }
        attributes.transmit_collisions = number(bytes, at);
        attributes.total_octets = number(bytes, at + 4);
        Some(Start { attributes, limit })
    }

    fn decimal(mut number: u64, line: &mut Vec<u8>) {
        let mut digits = [0; 20];
        let mut first = digits.len();
        loop {
            first -= 1;
            digits[first] = b'0' + (number % 10) as u8;
            number /= 10;
            if number == 0 {
                break;
            }
        }
        line.extend_from_slice(&digits[first..]);
    }

    fn hex(value: u16, digits: u32, line: &mut Vec<u8>) {
        for place in (0..digits).rev() {
            line.push(b"0123456789abcdef"[(value >> (4 * place) & 15) as usize]);
        }
    }

    /// Adds the line that document 01 lays down for the record of this number.
    pub fn print(number: u64, answer: Answer, line: &mut Vec<u8>) {
        decimal(number, line);
        match answer {
            Answer::Burst(word, out) => {
                line.extend_from_slice(match word {
                    Word::Nil => b" nil ",
                    Word::Rep => b" rep ",
                    Word::Jam => b" jam ",
                });
                hex(out, 3, line);
            }
            Answer::Value(byte) => {
                line.extend_from_slice(b" val ");
                hex(byte as u16, 2, line);
            }
            Answer::Refused(number) => {
                line.extend_from_slice(b" ref ");
                decimal(number as u64, line);
            }
            Answer::Done => line.extend_from_slice(b" ok"),
        }
        line.push(b'\n');
    }
}

/// What a trace has reached, by name. Judged from the state before and after each record, so that the
/// state machine itself carries nothing for it.
pub mod reached {
    use super::chip::*;
    use std::collections::HashMap;
    use std::fmt::Display;

    pub struct Reached {
        times: HashMap<String, u64>,
        /// Which ports had a short clean burst since their count was last 0.
        after_short: [bool; PORTS],
        /// Whether there was a reset.
        after_reset: bool,
    }

    const ENABLED_REGISTERS: [usize; 7] = [0, 1, 2, 3, 4, 6, 7];
    const AUI_GETS: [u8; 4] = [0x8f, 0x8b, 0x8d, 0x89];

    fn port_name(place: usize) -> String {
        if place == AUI {
            "aui".to_string()
        } else {
            format!("tp{place}")
        }
    }

    fn bit(set: u16, place: usize) -> bool {
        set >> place & 1 == 1
    }

    impl Reached {
        /// Every name, with nothing reached yet.
        pub fn new() -> Reached {
            let mut reached =
                Reached { times: HashMap::new(), after_short: [false; PORTS], after_reset: false };
            for name in names() {
                reached.times.insert(name, 0);
            }
            reached
        }

        fn note(&mut self, name: impl Display) {
            let name = name.to_string();
            match self.times.get_mut(&name) {
                Some(times) => *times += 1,
                None => panic!("no name '{name}' in the list of what can be reached"),
            }
        }

        fn note_if(&mut self, holds: bool, name: impl Display) {
            if holds {
                self.note(name);
            }
        }

        pub fn lines(&self) -> String {
            let mut lines: Vec<String> =
                self.times.iter().map(|(name, times)| format!("reached {name} {times}\n")).collect();
            lines.sort();
            lines.concat()
        }

        /// A power-up that was refused for its short event limit.
        pub fn no_power_up(&mut self, limit: u32) {
            let within = |limit: u32| (LEAST_LIMIT..=LARGEST_LIMIT).contains(&limit);
            self.note("refusal.13");
            self.note_if(limit == 0, "refusal.13.zero");
            self.note_if(limit == 74, "refusal.13.limit74");
            self.note_if(limit == 82, "refusal.13.limit82");
            self.note_if(within(limit & 0xff), "refusal.13.past8bits");
            self.note_if(within(limit & 0xffff), "refusal.13.past16bits");
            self.note_if(limit == u32::MAX, "refusal.13.largest");
        }

        pub fn record(&mut self, before: &Chip, bytes: &[u8], answer: Answer, after: &Chip) {
            match (answer, decode(bytes)) {
                (Answer::Refused(number), _) => self.refusal(before, bytes, number),
                (_, Ok(Record::Burst(burst))) => self.burst(before, &burst, after),
                (_, Ok(Record::Pulse(mask))) => self.pulse(before, mask, after),
                (_, Ok(Record::Tick)) => self.tick(before, after),
                (_, Ok(Record::CWrite(byte))) => self.c_write(before, byte),
                (Answer::Value(value), Ok(Record::CRead)) => self.c_read(before, value),
                (Answer::Value(value), Ok(Record::DRead)) => self.d_read(before, value),
                (_, Ok(Record::DWrite(byte))) => self.d_write(before, byte, after),
                (_, Ok(Record::Reset)) => self.reset(before),
                _ => {}
            }
            for r in ENABLED_REGISTERS {
                for place in 0..8 {
                    let risen = after.changes[r] & !before.changes[r];
                    self.note_if(risen >> place & 1 == 1, format_args!("change.r{r}.bit{place}"));
                }
            }
            for place in 0..PORTS {
                self.after_short[place] &= after.ports[place].count > 0;
            }
        }

        fn between(&mut self, before: &Chip, what: impl Display) {
            self.note_if(before.host.place != 0, format_args!("between.{what}"));
        }

        fn refusal(&mut self, before: &Chip, bytes: &[u8], number: u8) {
            self.note(format_args!("refusal.{number}"));
            self.between(before, format_args!("refusal{number}"));
            if number == 9 {
                return self.note(format_args!("length.{}", bytes.len()));
            }
            let byte = bytes[13];
            match (number, register_of(before.host.p, before.host.r)) {
                (5 | 6, _) => self.note(format_args!("refusal.{number}.kind{}", bytes[0])),
                (4, Some(Register::Set)) => self.note("refusal.4.S"),
                (4, _) => self.note("refusal.4.G"),
                (7, _) => self.note(format_args!("refusal.7.top{}", byte >> 5)),
                _ => self.damage(bytes, number),
            }
        }

        /// Refusals 8, 3, 2 and 1: which part is at fault, and which other refusals stood behind.
        fn damage(&mut self, bytes: &[u8], number: u8) {
            let kind = bytes[0];
            if !(1..=8).contains(&kind) {
                return self.note("zero.kind");
            }
            let stray: Vec<usize> =
                (0..RECORD).filter(|at| bytes[*at] & must_be_zero(kind, *at) != 0).collect();
            if let [at] = stray[..] {
                self.note(format_args!("zero.kind{kind}.byte{at}"));
                let one = bytes[at] & must_be_zero(kind, at);
                self.note_if(kind == 1 && at == 1 && one == 0x20, "zero.flag5");
                self.note_if(kind == 1 && at == 1 && one == 0x40, "zero.flag6");
                self.note_if(kind == 1 && at == 1 && one == 0x80, "zero.flag7");
            }
            let mask = u16::from_le_bytes([bytes[2], bytes[3]]);
            let limit = if kind == 1 { 9 } else { 8 };
            if number == 3 && (mask >> limit).count_ones() == 1 {
                let highest = 15 - mask.leading_zeros();
                self.note(format_args!("mask.kind{kind}.bit{highest}"));
            }
            let mut others = Vec::new();
            if kind <= 2 && mask >> limit != 0 {
                others.push(3);
            }
            if kind == 1 {
                let burst = burst_of(bytes);
                if out_of_range(&burst) {
                    others.push(2);
                }
                if burst.mask == 0 && !burst.aui_collision {
                    others.push(1);
                }
                if number == 2 {
                    self.range(&burst);
                }
            }
            if kind == 4 && !matches!(bytes[13] >> 5, 0 | 7) {
                others.push(7);
            }
            for other in others {
                self.note_if(other != number, format_args!("order.{number}.{other}"));
            }
        }

        /// Refusal 2: the fault, if it is one alone.
        fn range(&mut self, b: &Burst) {
            let octets = 8 * b.n as u64 + b.k as u64;
            let collision = b.c as u64 + b.x as u64;
            let faults = [
                (b.d == 0 && octets == 0 && collision == 0, "range.d.zero"),
                (b.d > LONGEST_BURST, "range.d.above"),
                (b.k > 7, "range.k"),
                (b.d > 0 && octets > b.d as u64 && b.k <= 7, "range.octets"),
                (b.d > 0 && collision > b.d as u64, "range.collision"),
            ];
            let found: Vec<&str> = faults.iter().filter(|fault| fault.0).map(|fault| fault.1).collect();
            if let [name] = found[..] {
                self.note(name);
                self.note_if(b.mask == 0, "range.aui_signal_alone");
                self.note_if(name == "range.octets" && octets as u32 <= b.d, "range.octets.past32bits");
                self.note_if(name == "range.octets" && octets == b.d as u64 + 1, "range.octets.by1");
                self.note_if(
                    name == "range.collision" && collision as u32 <= b.d,
                    "range.collision.past32bits",
                );
                self.note_if(name == "range.collision" && collision == b.d as u64 + 1, "range.collision.by1");
                self.note_if(b.d == LONGEST_BURST + 1, "range.d.1000001");
                self.note_if(b.k == 8, "range.k.8");
            }
        }

        fn burst(&mut self, before: &Chip, b: &Burst, after: &Chip) {
            self.between(before, "burst");
            let scene = before.scene(b);
            let ones = scene.heard.count_ones();
            self.words(before, b, &scene);
            self.edges(before.short_below, b, &scene);
            self.note(format_args!("heard.{ones}"));
            for place in 0..PORTS {
                self.credited(before, after, place);
                self.partitioned(before, b, &scene, after, place);
            }
            for place in 0..TWISTED {
                self.note_if(
                    !before.ports[place].passing && after.ports[place].passing,
                    format_args!("link.pass.burst.tp{place}"),
                );
                let active = bit(b.mask, place) && before.ports[place].link_test;
                self.note_if(active && before.ports[place].idle == 99, "link.idle99.burst");
                self.note_if(active && before.ports[place].pulses > 0, "link.pulses.burst");
                self.note_if(
                    active && !before.ports[place].enabled && !before.ports[place].passing,
                    "link.disabled.pass",
                );
            }
            self.whole(before, after);
            self.status(before, b, &scene);
            if ones == 1 && !scene.collision {
                self.address(before, b, &scene, after);
            }
        }

        fn words(&mut self, before: &Chip, b: &Burst, scene: &Scene) {
            let ones = scene.heard.count_ones();
            let aui = scene.heard == 1 << AUI;
            match scene.word {
                Word::Nil => self.note("word.nil"),
                Word::Rep => self.note("word.rep"),
                Word::Jam => self.note("word.jam"),
            }
            self.note_if(ones >= 2, "jam.two");
            self.note_if(ones >= 2 && b.rate_error, "jam.two.rate");
            self.note_if(ones == 1 && scene.word == Word::Jam && !scene.collision, "jam.rate");
            self.note_if(ones == 1 && scene.collision && !b.rate_error, "jam.aui");
            self.note_if(ones == 1 && scene.collision && b.rate_error, "jam.aui.rate");
            self.note_if(aui && scene.word == Word::Rep, "rep.aui");
            self.note_if(aui && scene.word == Word::Jam && !scene.collision, "jam.rate.aui");
            self.note_if(aui && scene.collision && bit(b.mask, AUI), "jam.aui.active");
            self.note_if(aui && scene.collision && !bit(b.mask, AUI), "jam.aui.signal");
            self.note_if(scene.out == 0 && scene.word == Word::Rep, "rep.no_output");
            self.note_if(scene.out == 0 && scene.word == Word::Jam, "jam.no_output");
            self.note_if(b.mask == 0, "signal.alone");
            let partitioned_aui = bit(scene.sendable, AUI) && !before.ports[AUI].connected;
            self.note_if(
                partitioned_aui && b.aui_collision && scene.word == Word::Rep,
                "rep.aui_partitioned_signal",
            );
            self.note_if(partitioned_aui && b.aui_collision && ones == 0, "nil.aui_partitioned_signal");
            self.note_if(!before.ports[AUI].enabled && b.aui_collision, "signal.aui_disabled");
            for place in 0..PORTS {
                let port = before.ports[place];
                let silent = scene.word == Word::Nil && bit(scene.active, place);
                self.note_if(silent && !port.enabled, "nil.disabled");
                self.note_if(silent && port.enabled && !port.passing, "nil.failed");
                self.note_if(silent && bit(scene.sendable, place), "nil.partitioned");
                let unheard = ones == 1 && bit(scene.active & scene.sendable & !scene.heard, place);
                self.note_if(unheard && scene.word == Word::Rep, "rep.partitioned_active");
            }
            let reconnecting = scene.active & scene.sendable & !scene.collided;
            self.note_if(
                ones == 0 && reconnecting.count_ones() >= 2 && b.d > LASTING_ABOVE,
                "nil.several_clean",
            );
        }

        fn edges(&mut self, limit: u32, b: &Burst, scene: &Scene) {
            let single = scene.heard.count_ones() == 1 && !scene.collision;
            let bad = if b.fcs_bad { "bad" } else { "good" };
            let dribble = if b.k > 0 { "dribble" } else { "whole" };
            if single && (b.d + 1 == limit || b.d == limit) {
                self.note(format_args!("edge.limit{limit}.d{}", b.d));
            }
            self.note_if(single && limit == 78 && b.d == 78 && b.n == 9, "edge.d78.n9");
            let between = limit.min(SHORT_BELOW)..limit.max(SHORT_BELOW);
            if single && self.after_reset && between.contains(&b.d) {
                self.note(format_args!("reset.limit{limit}.between"));
            }
            if single && b.d >= limit && matches!(b.n, 63 | 64 | 1518 | 1519) {
                self.note(format_args!("edge.n{}.{bad}.{dribble}", b.n));
            }
            let rate = single && b.rate_error;
            self.note_if(rate && b.d == 552, "edge.d552.mismatch");
            self.note_if(rate && b.d == 553, "edge.d553.mismatch");
            self.note_if(rate && b.d == 553 && scene.collided != 0, "edge.mismatch.others_collide");
            self.note_if(
                !single && scene.heard.count_ones() == 1 && b.rate_error && b.d > 552,
                "edge.mismatch.collision",
            );
            self.note_if(scene.collision && b.c == 512, "edge.c512.late");
            self.note_if(scene.collision && b.c == 513, "edge.c513.late");
            self.note_if(single && b.c > 512, "edge.late.single");
            self.note_if(scene.heard != 0 && b.d == 65_536, "edge.d65536.very_long");
            self.note_if(scene.heard != 0 && b.d == 65_537, "edge.d65537.very_long");
            self.note_if(scene.collision && b.d > 65_536, "edge.very_long.collision");
            self.note_if(b.d == 1, "edge.d1");
            self.note_if(b.d == LONGEST_BURST, "edge.d1000000");
            self.note_if(b.k == 7, "edge.k7");
            self.note_if(8 * b.n + b.k as u32 == b.d, "edge.octets.all");
            self.note_if(b.c + b.x == b.d, "edge.collision.all");
        }

        fn credited(&mut self, before: &Chip, after: &Chip, place: usize) {
            let old = &before.attributes.ports[place].counters;
            let new = &after.attributes.ports[place].counters;
            for r in 0..COUNTERS {
                if new[r] != old[r] {
                    self.note(format_args!("credit.r{r}.{}", port_name(place)));
                    self.note_if(new[r] < old[r], format_args!("wrap.r{r}"));
                }
            }
        }

        fn whole(&mut self, before: &Chip, after: &Chip) {
            let (old, new) = (&before.attributes, &after.attributes);
            self.note_if(new.transmit_collisions != old.transmit_collisions, "credit.transmit_collisions");
            self.note_if(new.transmit_collisions < old.transmit_collisions, "wrap.transmit_collisions");
            self.note_if(new.total_octets != old.total_octets, "credit.total_octets");
            self.note_if(new.total_octets < old.total_octets, "wrap.total_octets");
        }

        fn partitioned(&mut self, before: &Chip, b: &Burst, scene: &Scene, after: &Chip, place: usize) {
            let (old, new) = (before.ports[place], after.ports[place]);
            let name = port_name(place);
            let alternate = if place == AUI { before.alternate_aui } else { before.alternate_tp };
            let sent_data = scene.word == Word::Rep && bit(scene.out, place);
            let algorithm = if alternate { "alternate" } else { "standard" };
            if old.connected && !new.connected {
                let cause = if b.x > LONG_COLLISION_ABOVE { "length" } else { "count" };
                self.note(format_args!("partition.{cause}.{name}"));
                let kind = if place == AUI { "aui" } else { "tp" };
                self.note_if(
                    cause == "count" && self.after_short[place],
                    format_args!("partition.after_short.{kind}"),
                );
            }
            if !old.connected && new.connected {
                self.note(format_args!("reconnect.{algorithm}.{name}"));
                self.note(if sent_data { "reconnect.sent" } else { "reconnect.active" });
            }
            if !bit(scene.sendable, place) {
                let touched = bit(scene.active, place);
                self.note_if(touched && !old.connected, "outside.partitioned");
                return self.note_if(touched && old.count > 0, "outside.count");
            }
            let collided = bit(scene.collided, place);
            let clean = scene.word != Word::Jam && !collided && (bit(scene.active, place) || sent_data);
            self.note_if(collided && !old.connected, "partitioned.collides");
            self.note_if(collided && old.connected && b.x == 1024, "edge.x1024");
            self.note_if(collided && old.connected && b.x == 1025, "edge.x1025");
            self.note_if(collided && new.count == 31, "edge.count31");
            if clean && old.count > 0 {
                let way = if sent_data { "sent" } else { "active" };
                let what = if b.d > 512 { "cleared" } else { "kept" };
                self.note(format_args!("{what}.{algorithm}.{way}"));
                self.note_if(old.count == 31, format_args!("edge.count31.{what}.{way}"));
                self.note_if(matches!(b.d, 512 | 513), format_args!("edge.d{}.{what}.{way}", b.d));
                self.note_if(b.d > 512 && self.after_short[place], "cleared.after_short");
                self.after_short[place] |= b.d <= 512;
            }
            self.note_if(old.count > 0 && !clean && !collided && scene.word == Word::Jam, "kept.jam");
            self.note_if(old.count > 0 && !clean && !collided && scene.word == Word::Nil, "kept.nil");
            if !old.connected && clean {
                self.note_if(b.d == 512, format_args!("edge.d512.{algorithm}"));
                self.note_if(b.d == 513 && new.connected, format_args!("edge.d513.{algorithm}"));
                self.note_if(
                    b.d > 512 && !new.connected,
                    format_args!("denied.{}", if place == AUI { "aui" } else { "tp" }),
                );
            }
            let jammed = scene.word == Word::Jam && !collided && b.d > 512;
            self.note_if(!old.connected && jammed, "denied.jam");
        }

        fn status(&mut self, before: &Chip, b: &Burst, scene: &Scene) {
            let sent = bit(scene.out, AUI);
            if b.rate_error && scene.heard.count_ones() == 1 {
                self.note(format_args!("status.rate.{}", port_name(scene.heard.trailing_zeros() as usize)));
            }
            self.note_if(b.sqe_test, "status.S");
            self.note_if(b.sqe_test && scene.word == Word::Nil, "status.S.nil");
            self.note_if(b.sqe_test && !before.ports[AUI].enabled, "status.S.disabled");
            self.note_if(b.sqe_test && before.changes[SQE_TEST] != 0, "status.S.again");
            self.note_if(
                b.sqe_test && before.sqe_test && before.changes[SQE_TEST] == 0,
                "status.S.reported_anew",
            );
            self.note_if(b.loopback_missing && sent, "status.L");
            self.note_if(b.loopback_missing && sent && scene.word == Word::Jam, "status.L.jam");
            self.note_if(b.loopback_missing && !sent, "status.L.unsent");
            self.note_if(b.loopback_missing && sent && before.changes[LOOPBACK_ERROR] != 0, "status.L.again");
            self.note_if(
                b.loopback_missing && sent && before.loopback_error && before.changes[LOOPBACK_ERROR] == 0,
                "status.L.reported_anew",
            );
            self.note_if(b.d > VERY_LONG_ABOVE && scene.out != 0, "status.M");
            self.note_if(b.d > VERY_LONG_ABOVE && scene.out == 0, "status.M.unsent");
        }

        fn address(&mut self, before: &Chip, b: &Burst, scene: &Scene, after: &Chip) {
            let place = scene.heard.trailing_zeros() as usize;
            let (old, new) = (&before.attributes.ports[place], &after.attributes.ports[place]);
            if new.counters[READABLE_FRAMES] == old.counters[READABLE_FRAMES] {
                return self.note_if(old.address != b.source, "address.unreadable");
            }
            let differing: Vec<usize> = (0..6).filter(|at| old.address[*at] != b.source[*at]).collect();
            self.note_if(differing.is_empty(), "address.equal");
            if let [at] = differing[..] {
                self.note(format_args!("address.byte{at}"));
            }
        }

        fn pulse(&mut self, before: &Chip, mask: u8, after: &Chip) {
            self.between(before, "pulse");
            self.note_if(mask == 0, "link.pulse.empty");
            for place in (0..TWISTED).filter(|place| mask >> place & 1 == 1) {
                let (old, new) = (before.ports[place], after.ports[place]);
                self.note_if(!old.passing && new.passing, format_args!("link.pass.pulse.tp{place}"));
                self.note_if(!old.passing && new.passing && !old.enabled, "link.disabled.pass");
                self.note_if(old.idle == 99, "link.idle99.pulse");
                self.note_if(old.passing && old.idle > 0, "link.pulse.passing");
                self.note_if(new.pulses == 3, "link.pulse.third");
                self.note_if(!old.link_test, "link.pulse.test_off");
            }
        }

        fn tick(&mut self, before: &Chip, after: &Chip) {
            self.between(before, "tick");
            for place in 0..TWISTED {
                let (old, new) = (before.ports[place], after.ports[place]);
                self.note_if(old.passing && !new.passing, format_args!("link.fail.tick.tp{place}"));
                self.note_if(old.passing && !new.passing && !old.enabled, "link.disabled.fail");
                self.note_if(old.passing && !new.passing && !old.connected, "link.partitioned.fail");
                self.note_if(old.passing && new.idle == 99, "link.idle99");
                self.note_if(!old.passing && old.idle == 99, "link.failed.idle100");
                self.note_if(old.pulses > 0 && new.pulses == 0, "link.pulses.expired");
                self.note_if(!old.link_test, "link.tick.test_off");
            }
        }

        fn c_write(&mut self, before: &Chip, byte: u8) {
            let same = byte == before.host.p || byte == 0xe0 + before.host.r;
            if before.host.place != 0 {
                self.note(if before.host.writing { "restart.writing" } else { "restart.reading" });
                self.note_if(same, "restart.same");
            }
        }

        fn c_read(&mut self, before: &Chip, value: u8) {
            self.between(before, "c_read");
            self.note_if(value & 0x40 != 0, "c_read.error");
            self.note_if(value == 0xc0, "c_read.both");
            self.note_if(value == 0 && before.changes != [0; 8], "c_read.changes_not_enabled");
            self.note_if(
                value == 0 && before.enables != [0; 8] && before.changes != [0; 8],
                "c_read.other_enabled",
            );
            let causes: Vec<usize> =
                (0..8).filter(|r| before.changes[*r] & before.enables[*r] != 0).collect();
            if let [r] = causes[..] {
                self.note(format_args!("c_read.interrupt.r{r}"));
            }
        }

        fn d_read(&mut self, before: &Chip, value: u8) {
            let host = &before.host;
            let Some(register) = register_of(host.p, host.r) else { return };
            let bytes = bytes_of(register);
            let place = if host.writing { 0 } else { host.place };
            if host.writing && host.place != 0 {
                self.note(format_args!("turn.to_read.place{}", host.place));
            }
            self.note_if(value != 0, format_args!("read.p{}.r{}", host.p, host.r));
            if value != 0 && bytes > 1 {
                self.note(format_args!("read.bytes{bytes}.place{place}"));
            }
            let fresh = before.content(register)[place];
            self.note_if(place > 0 && fresh != value, format_args!("read.bytes{bytes}.copy_kept"));
        }

        fn d_write(&mut self, before: &Chip, byte: u8, after: &Chip) {
            let host = &before.host;
            match register_of(host.p, host.r) {
                Some(Register::Enables(r)) => {
                    self.note_if(byte & bits_of(r) != 0, format_args!("write.p2.r{r}"));
                    self.note_if(byte & !bits_of(r) != 0, format_args!("write.p2.r{r}.dropped"));
                }
                Some(Register::Address(port)) => {
                    let place = if host.writing { host.place } else { 0 };
                    self.note(format_args!("write.address.place{place}"));
                    if !host.writing && host.place != 0 {
                        self.note(format_args!("turn.to_write.place{}", host.place));
                    }
                    self.note_if(place == 5, format_args!("write.address.{}", port_name(port)));
                }
                Some(register) => self.command(before, byte, register, after),
                None => {}
            }
        }

        fn command(&mut self, before: &Chip, byte: u8, register: Register, after: &Chip) {
            let through = if register == Register::Get { "G" } else { "S" };
            self.note(format_args!("command.{through}.{byte:02x}"));
            if is_get(byte) {
                return self.got(byte, after.got);
            }
            self.note_if(
                before.ports == after.ports
                    && before.alternate_tp == after.alternate_tp
                    && before.alternate_aui == after.alternate_aui,
                format_args!("already.{byte:02x}"),
            );
            for place in 0..PORTS {
                let (old, new) = (before.ports[place], after.ports[place]);
                let name = port_name(place);
                self.note_if(!old.connected && new.connected, format_args!("reconnect.disable.{name}"));
                self.note_if(old.count > 0 && new.count == 0, format_args!("count.disable.{name}"));
                self.note_if(old.passing && !new.passing, format_args!("link.fail.enable.{name}"));
                self.note_if(!old.passing && new.passing, format_args!("link.pass.test_off.{name}"));
                self.note_if(!old.passing && new.passing && !old.enabled, "link.disabled.test_off");
                self.note_if(
                    !old.enabled && new.enabled && new.passing && place != AUI,
                    "link.enable.test_off",
                );
                self.note_if(!old.link_test && new.link_test, format_args!("link.test_on.{name}"));
            }
        }

        fn got(&mut self, byte: u8, value: u8) {
            let one = |place: usize| value >> place & 1 == 1;
            if AUI_GETS.contains(&byte) {
                self.note(format_args!("get.{byte:02x}.P{}", value >> 7));
                for (place, name) in [(6, "B"), (5, "S"), (4, "L")] {
                    self.note_if(one(place), format_args!("get.{byte:02x}.{name}1"));
                }
            }
            for place in 0..8 {
                self.note_if(byte == 0x80 && !one(place), format_args!("get.80.tp{place}.partitioned"));
                self.note_if(byte == 0xa0 && one(place), format_args!("get.a0.tp{place}.error"));
                self.note_if(byte == 0xd0 && one(place), format_args!("get.d0.tp{place}.pass"));
                self.note_if(byte == 0xd0 && !one(place), format_args!("get.d0.tp{place}.fail"));
            }
            self.note_if(byte == 0xf0 && value == 0x80, "get.f0.M1");
        }

        fn reset(&mut self, before: &Chip) {
            let fresh = Chip::fresh(before.attributes, before.short_below);
            self.after_reset = true;
            let twisted = || (0..TWISTED).map(|place| before.ports[place]);
            let facts = [
                ("partitioned", before.ports.iter().any(|port| !port.connected)),
                ("counted", before.ports.iter().any(|port| port.count > 0)),
                ("disabled", twisted().any(|port| !port.enabled)),
                ("aui_disabled", !before.ports[AUI].enabled),
                ("passing", twisted().any(|port| port.passing)),
                ("test_off", twisted().any(|port| !port.link_test)),
                ("idle", twisted().any(|port| port.idle > 0)),
                ("pulses", twisted().any(|port| port.pulses > 0)),
                ("alternate_tp", before.alternate_tp),
                ("alternate_aui", before.alternate_aui),
                ("rate_errors", before.rate_errors & 0xff != 0),
                ("B", before.rate_errors & 0x100 != 0),
                ("S", before.sqe_test),
                ("L", before.loopback_error),
                ("M", before.mjlp),
                ("changes", before.changes != fresh.changes),
                ("enables", before.enables != fresh.enables),
                ("error", before.interface_error),
                ("G", before.got != 0),
                ("P", before.host.p != 0),
                ("R", before.host.r != 0),
                ("reading", before.host.place != 0 && !before.host.writing),
                ("writing", before.host.place != 0 && before.host.writing),
                ("attributes", before.attributes != ZERO),
            ];
            for (name, holds) in facts {
                self.note_if(holds, format_args!("reset.{name}"));
            }
        }
    }

    /// The list of what can be reached. A comparison that leaves one of these at zero has a hole.
    fn names() -> Vec<String> {
        let mut names: Vec<String> = PLAIN.split_whitespace().map(str::to_string).collect();
        let mut add = |name: String| names.push(name);
        for place in 0..PORTS {
            let name = port_name(place);
            (0..COUNTERS).for_each(|r| add(format!("credit.r{r}.{name}")));
            for what in [
                "partition.count",
                "partition.length",
                "reconnect.standard",
                "reconnect.alternate",
                "reconnect.disable",
                "count.disable",
                "status.rate",
                "write.address",
            ] {
                add(format!("{what}.{name}"));
            }
        }
        for place in 0..TWISTED {
            for what in [
                "link.pass.burst",
                "link.pass.pulse",
                "link.fail.tick",
                "link.fail.enable",
                "link.pass.test_off",
                "link.test_on",
            ] {
                add(format!("{what}.tp{place}"));
            }
            for what in ["80.tp%.partitioned", "a0.tp%.error", "d0.tp%.pass", "d0.tp%.fail"] {
                add(format!("get.{}", what.replace('%', &place.to_string())));
            }
        }
        for r in ENABLED_REGISTERS {
            (0..8)
                .filter(|place| bits_of(r) >> place & 1 == 1)
                .for_each(|place| add(format!("change.r{r}.bit{place}")));
            add(format!("c_read.interrupt.r{r}"));
            add(format!("write.p2.r{r}"));
            if bits_of(r) != 0xff {
                add(format!("write.p2.r{r}.dropped"));
            }
        }
        for limit in LEAST_LIMIT..=LARGEST_LIMIT {
            add(format!("edge.limit{limit}.d{}", limit - 1));
            add(format!("edge.limit{limit}.d{limit}"));
            if limit != SHORT_BELOW {
                add(format!("reset.limit{limit}.between"));
            }
        }
        (0..COUNTERS).for_each(|r| add(format!("wrap.r{r}")));
        (0..=PORTS).for_each(|ones| add(format!("heard.{ones}")));
        (1..RECORD).for_each(|length| add(format!("length.{length}")));
        for p in 0..32 {
            for r in 0..32 {
                if register_of(p, r).is_some_and(|register| register != Register::Set) {
                    add(format!("read.p{p}.r{r}"));
                }
            }
        }
        for kind in 1..=8 {
            (1..RECORD)
                .filter(|at| must_be_zero(kind, *at) != 0)
                .for_each(|at| add(format!("zero.kind{kind}.byte{at}")));
        }
        (9..16).for_each(|place| add(format!("mask.kind1.bit{place}")));
        (8..16).for_each(|place| add(format!("mask.kind2.bit{place}")));
        (1..=6).for_each(|top| add(format!("refusal.7.top{top}")));
        for byte in 0..=255 {
            if command_of(byte).is_none() {
                continue;
            }
            add(format!("command.S.{byte:02x}"));
            add(format!("command.G.{byte:02x}"));
            if !is_get(byte) {
                add(format!("already.{byte:02x}"));
            }
        }
        for byte in AUI_GETS {
            ["P0", "P1", "B1", "S1", "L1"].iter().for_each(|what| add(format!("get.{byte:02x}.{what}")));
        }
        for n in [63, 64, 1518, 1519] {
            for what in ["good.whole", "good.dribble", "bad.whole", "bad.dribble"] {
                add(format!("edge.n{n}.{what}"));
            }
        }
        for place in 0..6 {
            add(format!("address.byte{place}"));
            add(format!("read.bytes6.place{place}"));
            add(format!("write.address.place{place}"));
        }
        (0..4).for_each(|place| add(format!("read.bytes4.place{place}")));
        for place in 1..6 {
            add(format!("turn.to_read.place{place}"));
            add(format!("turn.to_write.place{place}"));
        }
        names
    }

    const PLAIN: &str = "
        word.nil word.rep word.jam jam.two jam.two.rate jam.rate jam.rate.aui jam.aui jam.aui.rate jam.aui.active
        jam.aui.signal jam.no_output rep.aui rep.no_output rep.aui_partitioned_signal rep.partitioned_active
        nil.disabled nil.failed nil.partitioned nil.several_clean nil.aui_partitioned_signal
        signal.alone signal.aui_disabled
        edge.d78.n9 edge.d552.mismatch edge.d553.mismatch
        edge.mismatch.others_collide edge.mismatch.collision edge.c512.late edge.c513.late edge.late.single
        edge.d65536.very_long edge.d65537.very_long edge.very_long.collision edge.d1 edge.d1000000 edge.k7
        edge.octets.all edge.collision.all edge.x1024 edge.x1025 edge.count31 edge.count31.cleared.sent
        edge.count31.cleared.active edge.count31.kept.sent edge.count31.kept.active edge.d512.kept.sent
        edge.d512.kept.active edge.d513.cleared.sent edge.d513.cleared.active
        edge.d512.standard edge.d513.standard edge.d512.alternate edge.d513.alternate
        credit.transmit_collisions credit.total_octets wrap.transmit_collisions wrap.total_octets
        partitioned.collides
        reconnect.sent reconnect.active
        partition.after_short.tp partition.after_short.aui
        outside.partitioned outside.count kept.jam kept.nil
        kept.standard.sent kept.standard.active kept.alternate.sent kept.alternate.active
        cleared.standard.sent cleared.standard.active cleared.alternate.sent cleared.alternate.active
        cleared.after_short
        denied.tp denied.aui denied.jam
        status.S status.S.nil status.S.disabled status.S.again status.S.reported_anew
        status.L status.L.jam status.L.unsent status.L.again status.L.reported_anew status.M status.M.unsent
        get.f0.M1 address.equal address.unreadable
        link.disabled.pass link.disabled.fail link.disabled.test_off link.enable.test_off link.partitioned.fail
        link.idle99 link.idle99.pulse link.idle99.burst link.pulses.burst link.pulses.expired link.pulse.empty
        link.pulse.passing link.pulse.third link.pulse.test_off link.failed.idle100 link.tick.test_off
        c_read.error c_read.both c_read.changes_not_enabled c_read.other_enabled
        restart.reading restart.writing restart.same read.bytes4.copy_kept read.bytes6.copy_kept
        between.burst between.pulse between.tick between.c_read between.refusal1 between.refusal2 between.refusal3
        between.refusal6 between.refusal7 between.refusal8 between.refusal9
        refusal.1 refusal.2 refusal.3 refusal.4 refusal.5 refusal.6 refusal.7 refusal.8 refusal.9
        refusal.13 refusal.13.zero refusal.13.limit74 refusal.13.limit82 refusal.13.past8bits refusal.13.past16bits
        refusal.13.largest
        refusal.4.S refusal.4.G refusal.5.kind5 refusal.5.kind7 refusal.6.kind5 refusal.6.kind7
        zero.kind zero.flag5 zero.flag6 zero.flag7
        range.d.zero range.d.above range.d.1000001 range.k range.k.8 range.octets range.octets.by1
        range.octets.past32bits range.collision range.collision.by1 range.collision.past32bits range.aui_signal_alone
        order.8.7 order.8.3 order.8.2 order.8.1 order.3.2 order.2.1
        reset.partitioned reset.counted reset.disabled reset.aui_disabled reset.passing reset.test_off reset.idle
        reset.pulses reset.alternate_tp reset.alternate_aui reset.rate_errors reset.B reset.S reset.L reset.M
        reset.changes reset.enables reset.error reset.G reset.P reset.R reset.reading reset.writing reset.attributes
    ";
}

/// Answers all whole records of the input as they come, and at its end a short last piece as one record.
pub mod program {
    use super::chip::*;
    use super::reached::Reached;
    use std::io::{self, Read, Write};

    struct Run {
        chip: Chip,
        number: u64,
        reached: Option<Reached>,
        lines: Vec<u8>,
    }

    impl Run {
        fn answer(&mut self, bytes: &[u8]) {
            self.number += 1;
            let answer = match &mut self.reached {
                None => self.chip.step(bytes),
                Some(reached) => {
                    let before = self.chip.clone();
                    let answer = self.chip.step(bytes);
                    reached.record(&before, bytes, answer, &self.chip);
                    answer
                }
            };
            print(self.number, answer, &mut self.lines);
        }

        fn write(&mut self, output: &mut impl Write) -> io::Result<()> {
            output.write_all(&self.lines)?;
            self.lines.clear();
            output.flush()
        }
    }

    /// The chip of a start file, or a line on standard error that says why there is none.
    fn powered(who: &str, start: Start) -> Option<Chip> {
        match Chip::power_up(start.attributes, start.limit) {
            Ok(chip) => Some(chip),
            Err(number) => {
                let limit = start.limit;
                eprintln!(
                    "{who}: short event limit {limit} is outside {LEAST_LIMIT} to {LARGEST_LIMIT} (refused {number})"
                );
                None
            }
        }
    }

    /// What the octet check says of pairs of readings: frames earlier and later, octets earlier and later.
    pub fn octets() -> io::Result<()> {
        let mut bytes = Vec::new();
        io::stdin().lock().read_to_end(&mut bytes)?;
        let mut lines = String::new();
        for pair in bytes.chunks_exact(16) {
            let frames = difference(number(pair, 0), number(pair, 4));
            let octets = difference(number(pair, 8), number(pair, 12));
            let said = match octet_check(frames, octets) {
                Ok(true) => String::from("yes"),
                Ok(false) => String::from("no"),
                Err(refused) => refused.to_string(),
            };
            lines += &format!("{frames} {octets} {said}\n");
        }
        io::stdout().lock().write_all(lines.as_bytes())
    }

    const NAMES: [&str; COUNTERS] = [
        "Readable Frames",
        "Readable Octets",
        "FCS Errors",
        "Alignment Errors",
        "Frames Too Long",
        "Short Events",
        "Runts",
        "Collisions",
        "Late Events",
        "Very Long Events",
        "Data Rate Mismatches",
        "Auto Partitions",
        "Source Address Changes",
    ];

    fn filled(input: &mut impl Read, buffer: &mut [u8]) -> io::Result<usize> {
        let mut have = 0;
        while have < buffer.len() {
            match input.read(&mut buffer[have..]) {
                Ok(0) => break,
                Ok(got) => have += got,
                Err(error) if error.kind() == io::ErrorKind::Interrupted => continue,
                Err(error) => return Err(error),
            }
        }
        Ok(have)
    }

    /// The counters that a trace leaves: a line for each of these registers, with a value for each port.
    pub fn export(start: Start, registers: std::ops::Range<usize>) -> io::Result<()> {
        let Some(mut chip) = powered("export", start) else { return Ok(()) };
        let mut input = io::stdin().lock();
        let mut refused: u64 = 0;
        let mut buffer = vec![0; 1 << 16];
        loop {
            let have = filled(&mut input, &mut buffer)?;
            for record in buffer[..have].chunks(RECORD) {
                if let Answer::Refused(_) = chip.step(record) {
                    refused += 1;
                }
            }
            if have < buffer.len() {
                break;
            }
        }
        match refused {
            0 => {}
            1 => eprintln!("export: 1 record refused"),
            _ => eprintln!("export: {refused} records refused"),
        }
        let mut lines = String::from("attribute,tp0,tp1,tp2,tp3,tp4,tp5,tp6,tp7,aui\n");
        for register in registers {
            lines += NAMES[register];
            for port in &chip.attributes.ports {
                lines += &format!(",{}", port.counters[register]);
            }
            lines.push('\n');
        }
        io::stdout().lock().write_all(lines.as_bytes())
    }

    /// The true number of credits of each counter since power-up, in the order and the words of a start file.
    pub fn credits(start: Start) -> io::Result<()> {
        let mut attributes = ZERO;
        for (port, given) in attributes.ports.iter_mut().zip(start.attributes.ports) {
            port.address = given.address;
        }
        let Some(mut chip) = powered("credits", Start { attributes, ..start }) else { return Ok(()) };
        let mut input = io::stdin().lock();
        let mut credits = Credits::NONE;
        let mut buffer = vec![0; 1 << 16];
        loop {
            let have = filled(&mut input, &mut buffer)?;
            for record in buffer[..have].chunks(RECORD) {
                chip.step(record);
                credits.take_over(&mut chip.attributes);
            }
            if have < buffer.len() {
                break;
            }
        }
        let mut lines = String::new();
        for (place, row) in credits.ports.iter().enumerate() {
            let port = if place == AUI { String::from("aui") } else { format!("tp{place}") };
            for (name, credit) in NAMES.iter().zip(row) {
                lines += &format!("{port} {name} = {credit}\n");
            }
        }
        lines += &format!("Transmit Collisions = {}\n", credits.transmit_collisions);
        lines += &format!("Total Octets = {}\n", credits.total_octets);
        io::stdout().lock().write_all(lines.as_bytes())
    }

    /// The sum of the differences of all readings, or why there is none.
    pub fn totals() -> io::Result<()> {
        let mut input = io::stdin().lock();
        let mut buffer = vec![0; 1 << 16];
        let mut have = filled(&mut input, &mut buffer)?;
        let mut total = Total::begun(if have < 4 { 0 } else { number(&buffer, 0) });
        loop {
            match total.with(&buffer[..have]) {
                Some(more) => total = more,
                None => {
                    eprintln!("totals: the sum reaches 2^64 and does not fit in 64 bits");
                    return Ok(());
                }
            }
            if have < buffer.len() {
                break;
            }
            have = filled(&mut input, &mut buffer)?;
        }
        match have % 4 {
            0 => writeln!(io::stdout().lock(), "{}", total.sum)?,
            1 => eprintln!("totals: behind the last whole reading is 1 byte more"),
            more => eprintln!("totals: behind the last whole reading are {more} bytes more"),
        }
        Ok(())
    }

    pub fn run(start: Start, with_reached: bool) -> io::Result<()> {
        let mut reached = if with_reached { Some(Reached::new()) } else { None };
        let Some(chip) = powered("run", start) else {
            return match &mut reached {
                Some(reached) => {
                    reached.no_power_up(start.limit);
                    io::stderr().write_all(reached.lines().as_bytes())
                }
                None => Ok(()),
            };
        };
        let mut input = io::stdin().lock();
        let mut output = io::stdout().lock();
        let mut run = Run { chip, number: 0, reached, lines: Vec::new() };
        let mut buffer = vec![0; 1 << 16];
        let mut kept = 0;
        loop {
            let got = match input.read(&mut buffer[kept..]) {
                Ok(0) => break,
                Ok(got) => got,
                Err(error) if error.kind() == io::ErrorKind::Interrupted => continue,
                Err(error) => return Err(error),
            };
            let filled = kept + got;
            let whole = filled - filled % RECORD;
            for record in buffer[..whole].chunks_exact(RECORD) {
                run.answer(record);
            }
            run.write(&mut output)?;
            buffer.copy_within(whole..filled, 0);
            kept = filled - whole;
        }
        if kept > 0 {
            run.answer(&buffer[..kept]);
            run.write(&mut output)?;
        }
        if let Some(reached) = &run.reached {
            io::stderr().write_all(reached.lines().as_bytes())?;
        }
        Ok(())
    }
}

fn start_file(path: &str) -> Result<chip::Start, String> {
    let bytes = std::fs::read(path).map_err(|error| format!("start file {path}: {error}"))?;
    chip::start_of(&bytes).ok_or_else(|| {
        let (short, long) = (chip::START_BYTES, chip::LONG_START_BYTES);
        format!("start file {path}: {} bytes, not {short}, or {long} with a 0 at the end", bytes.len())
    })
}

/// The registers that a word names: one, or all.
fn registers(word: Option<String>) -> Result<std::ops::Range<usize>, String> {
    let word = word.unwrap_or_default();
    match word.parse::<usize>() {
        _ if word == "all" => Ok(0..chip::COUNTERS),
        Ok(number) if number < chip::COUNTERS => Ok(number..number + 1),
        _ => Err(format!("'{word}' is no attribute: a register number, 0 to 12, or all")),
    }
}

fn started() -> Result<(), String> {
    let mut reached = false;
    let mut export = None;
    let mut credits = false;
    let mut start = chip::NOTHING;
    let mut files = 0;
    let mut words = std::env::args().skip(1);
    while let Some(word) = words.next() {
        if word == "--export" {
            export = Some(registers(words.next())?);
        } else if word == "--octets" {
            return program::octets().map_err(|error| error.to_string());
        } else if word == "--totals" {
            return program::totals().map_err(|error| error.to_string());
        } else if word == "--credits" {
            credits = true;
        } else if word == "--reached" {
            reached = true;
        } else if word.starts_with("--") || files == 1 {
            return Err(format!("'{word}' is not understood; usage: model [--reached] [START] < TRACE, or model --octets < PAIRS"));
        } else {
            start = start_file(&word)?;
            files += 1;
        }
    }
    match export {
        Some(registers) => program::export(start, registers).map_err(|error| error.to_string()),
        None if credits => program::credits(start).map_err(|error| error.to_string()),
        None => program::run(start, reached).map_err(|error| error.to_string()),
    }
}

fn main() {
    if let Err(message) = started() {
        eprintln!("model: {message}");
        std::process::exit(2);
    }
}

/// Expected values here stand in document 01, those of the kept count in Q-2, those of the short event limit in Q-6, those
/// of sums in Q-14; none comes from a run.
#[cfg(test)]
mod paper {
    use super::chip::*;

    type Bytes = [u8; RECORD];

    fn record(kind: u8) -> Bytes {
        let mut bytes = [0; RECORD];
        bytes[0] = kind;
        bytes
    }

    fn put(bytes: &mut Bytes, at: usize, value: u32) {
        bytes[at..at + 4].copy_from_slice(&value.to_le_bytes());
    }

    fn burst(mask: u16, d: u32) -> Bytes {
        let mut bytes = record(1);
        bytes[2..4].copy_from_slice(&mask.to_le_bytes());
        put(&mut bytes, 4, d);
        bytes
    }

    fn frame(mask: u16, d: u32, n: u32, fcs_bad: bool, k: u8) -> Bytes {
        let mut bytes = burst(mask, d);
        bytes[1] = fcs_bad as u8;
        put(&mut bytes, 8, n);
        bytes[12] = k;
        bytes
    }

    fn collision(mask: u16, d: u32, c: u32, x: u32) -> Bytes {
        let mut bytes = burst(mask, d);
        put(&mut bytes, 16, c);
        put(&mut bytes, 20, x);
        bytes
    }

    fn pulse(mask: u8) -> Bytes {
        let mut bytes = record(2);
        bytes[2] = mask;
        bytes
    }

    fn written(kind: u8, byte: u8) -> Bytes {
        let mut bytes = record(kind);
        bytes[13] = byte;
        bytes
    }

    fn powered(attributes: Attributes) -> Chip {
        Chip::power_up(attributes, 78).unwrap()
    }

    fn all_passing_at(limit: u32) -> Chip {
        let mut chip = Chip::power_up(ZERO, limit).unwrap();
        for _ in 0..4 {
            assert_eq!(chip.step(&pulse(0xff)), Answer::Done);
        }
        chip
    }

    fn all_passing() -> Chip {
        all_passing_at(78)
    }

    fn counters(chip: &Chip, port: usize) -> [u32; COUNTERS] {
        chip.attributes.ports[port].counters
    }

    #[test]
    fn the_sample_gives_its_ten_lines() {
        let mut records = vec![pulse(3); 4];
        records.push(frame(1, 1000, 64, false, 0));
        records.push(written(4, 0x10));
        records.push(written(4, 0xe0));
        records.push(record(7));
        records.push(collision(3, 600, 100, 300));
        let mut tick = record(3);
        tick[2] = 1;
        records.push(tick);
        let mut chip = powered(ZERO);
        let mut lines = Vec::new();
        for (place, bytes) in records.iter().enumerate() {
            let answer = chip.step(bytes);
            print(place as u64 + 1, answer, &mut lines);
        }
        let expected = "1 ok\n2 ok\n3 ok\n4 ok\n5 rep 102\n6 ok\n7 ok\n8 val 01\n9 jam 103\n10 ref 8\n";
        assert_eq!(String::from_utf8(lines).unwrap(), expected);
    }

    #[test]
    fn boundary_sheet_classes() {
        let rows = [
            (77, 9, false, 0, SHORT_EVENTS),
            (78, 9, false, 0, RUNTS),
            (13_000, 63, false, 0, RUNTS),
            (13_000, 64, false, 0, READABLE_FRAMES),
            (13_000, 1518, false, 0, READABLE_FRAMES),
            (13_000, 1519, false, 0, FRAMES_TOO_LONG),
            (13_000, 64, true, 0, FCS_ERRORS),
            (13_000, 64, true, 3, ALIGNMENT_ERRORS),
            (13_000, 64, false, 3, READABLE_FRAMES),
        ];
        for (d, n, fcs_bad, k, class) in rows {
            let mut chip = all_passing();
            chip.step(&frame(4, d, n, fcs_bad, k));
            let mut expected = [0; COUNTERS];
            expected[class] = 1;
            if class == READABLE_FRAMES {
                expected[READABLE_OCTETS] = n;
            }
            assert_eq!(counters(&chip, 2), expected, "d {d}, n {n}, FCS bad {fcs_bad}, k {k}");
        }
    }

    fn short_and_runts(chip: &Chip, port: usize) -> (u32, u32) {
        (counters(chip, port)[SHORT_EVENTS], counters(chip, port)[RUNTS])
    }

    // The row 'd 77 short; 78, n 9 runt' at each limit, for TP0 and AUI.
    #[test]
    fn below_the_limit_is_a_short_event_and_at_it_a_runt() {
        for limit in [75, 76, 77, 78, 79, 80, 81] {
            for (mask, port) in [(1, 0), (0x100, AUI)] {
                let mut chip = all_passing_at(limit);
                chip.step(&frame(mask, limit - 1, 9, false, 0));
                assert_eq!(short_and_runts(&chip, port), (1, 0), "limit {limit}, d {}", limit - 1);
                chip.step(&frame(mask, limit, 9, false, 0));
                assert_eq!(short_and_runts(&chip, port), (1, 1), "limit {limit}, d {limit}");
            }
        }
    }

    #[test]
    fn a_reset_keeps_the_limit() {
        for (limit, d, due) in [(77, 77, (0, 2)), (75, 75, (0, 2)), (81, 80, (2, 0)), (79, 78, (2, 0))] {
            let mut chip = all_passing_at(limit);
            chip.step(&frame(1, d, 9, false, 0));
            assert_eq!(chip.step(&record(8)), Answer::Done);
            for _ in 0..4 {
                chip.step(&pulse(1));
            }
            chip.step(&frame(1, d, 9, false, 0));
            assert_eq!(short_and_runts(&chip, 0), due, "limit {limit}, d {d}");
        }
    }

    #[test]
    fn nothing_else_hangs_on_the_limit() {
        for limit in [75, 78, 81] {
            let mut chip = all_passing_at(limit);
            chip.step(&frame(1, 13_000, 63, false, 0));
            chip.step(&frame(1, 13_000, 64, false, 0));
            let mut due = [0; COUNTERS];
            (due[RUNTS], due[READABLE_FRAMES], due[READABLE_OCTETS]) = (1, 1, 64);
            assert_eq!(counters(&chip, 0), due, "limit {limit}");
            assert_eq!(chip.step(&collision(6, 76, 0, 1)), Answer::Burst(Word::Jam, 0x1ff));
            assert_eq!(short_and_runts(&chip, 1), (0, 0), "limit {limit}");
        }
    }

    #[test]
    fn a_limit_outside_75_to_81_is_refused_with_13() {
        for limit in [0, 74, 82, 256 + 78, 4_294_967_295] {
            assert_eq!(Chip::power_up(ZERO, limit), Err(13), "limit {limit}");
        }
        for limit in [75, 81] {
            assert!(Chip::power_up(ZERO, limit).is_ok(), "limit {limit}");
        }
    }

    #[test]
    fn a_start_file_has_530_bytes_or_535() {
        let mut bytes = vec![0; 535];
        bytes[526] = 9;
        let attributes = Attributes { total_octets: 9, ..ZERO };
        assert_eq!(start_of(&bytes[..530]), Some(Start { attributes, limit: 78 }));
        assert_eq!(start_of(&bytes), Some(Start { attributes, limit: 0 }));
        for limit in [75, 256 + 78, 4_294_967_295] {
            bytes[530..534].copy_from_slice(&u32::to_le_bytes(limit));
            assert_eq!(start_of(&bytes), Some(Start { attributes, limit }));
        }
        bytes[534] = 1;
        assert_eq!(start_of(&bytes), None);
        for size in [0, 529, 531, 534, 536] {
            assert_eq!(start_of(&vec![0; size]), None, "{size} bytes");
        }
    }

    #[test]
    fn boundary_sheet_reconnect() {
        for (d, connected) in [(512, false), (513, true)] {
            let mut chip = all_passing();
            chip.step(&collision(3, 2000, 0, 1025));
            assert!(!chip.ports[0].connected && !chip.ports[1].connected);
            chip.step(&burst(4, d));
            assert_eq!(chip.ports[0].connected, connected, "d {d}");
        }
    }

    #[test]
    fn boundary_sheet_length_of_collision() {
        let mut chip = all_passing();
        chip.step(&collision(3, 2000, 0, 1024));
        assert_eq!((chip.ports[0].connected, chip.ports[0].count), (true, 1));
        chip.step(&collision(3, 2000, 0, 1025));
        assert_eq!((chip.ports[0].connected, chip.ports[0].count), (false, 0));
    }

    #[test]
    fn boundary_sheet_late() {
        for (c, late) in [(512, 0), (513, 1)] {
            let mut chip = all_passing();
            chip.step(&collision(3, 2000, c, 1));
            assert_eq!(counters(&chip, 1)[LATE_EVENTS], late, "c {c}");
            assert_eq!(counters(&chip, 1)[COLLISIONS], 1, "c {c}");
        }
    }

    #[test]
    fn boundary_sheet_collisions_in_a_row() {
        let mut chip = all_passing();
        for _ in 0..31 {
            chip.step(&collision(3, 600, 0, 100));
        }
        assert!(chip.ports[0].connected);
        chip.step(&collision(3, 600, 0, 100));
        assert!(!chip.ports[0].connected);
        assert_eq!(counters(&chip, 0)[AUTO_PARTITIONS], 1);
    }

    /// TP0 and TP1 with 31 collisions each.
    fn at_31(alternate: bool) -> Chip {
        let mut chip = all_passing();
        if alternate {
            chip.step(&written(4, 0xfe));
            assert_eq!(chip.step(&written(5, 0x10)), Answer::Done);
        }
        for _ in 0..31 {
            assert_eq!(chip.step(&burst(3, 600)), Answer::Burst(Word::Jam, 0x1ff));
        }
        assert_eq!((chip.ports[0].count, chip.ports[1].count), (31, 31));
        chip
    }

    // Sent data from AUI to both, or TP0 heard alone and TP1 sent its data: by either algorithm d alone decides.
    #[test]
    fn a_short_clean_burst_keeps_the_count() {
        for alternate in [false, true] {
            for (mask, d) in [(0x100, 512), (0x100, 1), (1, 512), (1, 1)] {
                let mut chip = at_31(alternate);
                assert_eq!(chip.step(&burst(mask, d)), Answer::Burst(Word::Rep, 0x1ff & !mask));
                assert_eq!((chip.ports[0].count, chip.ports[1].count), (31, 31), "mask {mask}, d {d}");
                chip.step(&burst(3, 600));
                assert!(!chip.ports[0].connected && !chip.ports[1].connected, "mask {mask}, d {d}");
                assert_eq!(counters(&chip, 0)[AUTO_PARTITIONS], 1, "mask {mask}, d {d}");
            }
        }
    }

    #[test]
    fn a_clean_burst_above_512_zeroes_the_count() {
        for alternate in [false, true] {
            for mask in [0x100, 1] {
                let mut chip = at_31(alternate);
                assert_eq!(chip.step(&burst(mask, 513)), Answer::Burst(Word::Rep, 0x1ff & !mask));
                assert_eq!((chip.ports[0].count, chip.ports[1].count), (0, 0), "mask {mask}");
                chip.step(&burst(3, 600));
                assert_eq!((chip.ports[0].connected, chip.ports[0].count), (true, 1), "mask {mask}");
                assert_eq!((chip.ports[1].connected, chip.ports[1].count), (true, 1), "mask {mask}");
            }
        }
    }

    #[test]
    fn disabling_and_a_reset_zero_a_kept_count() {
        let mut chip = at_31(false);
        chip.step(&burst(0x100, 512));
        chip.step(&written(4, 0xfe));
        chip.step(&written(5, 0x20));
        assert_eq!((chip.ports[0].count, chip.ports[1].count), (0, 31));
        chip.step(&record(8));
        assert_eq!(chip.ports[1].count, 0);
    }

    #[test]
    fn boundary_sheet_very_long() {
        for (d, events) in [(65_536, 0), (65_537, 1)] {
            let mut chip = all_passing();
            chip.step(&burst(2, d));
            assert_eq!(counters(&chip, 1)[VERY_LONG_EVENTS], events, "d {d}");
            assert_eq!(chip.mjlp, events == 1, "d {d}");
        }
    }

    #[test]
    fn boundary_sheet_ticks() {
        let mut chip = all_passing();
        for _ in 0..99 {
            chip.step(&record(3));
        }
        assert!(chip.ports[7].passing);
        chip.step(&record(3));
        assert!(!chip.ports[7].passing);
    }

    #[test]
    fn boundary_sheet_readings() {
        assert_eq!(difference(4_294_967_295, 2), 3);
    }

    fn total(readings: &[u32]) -> Option<u64> {
        let bytes: Vec<u8> = readings.iter().flat_map(|reading| reading.to_le_bytes()).collect();
        Total::begun(readings[0]).with(&bytes).map(|total| total.sum)
    }

    #[test]
    fn differences_add_up_to_a_whole_number() {
        assert_eq!(total(&[4_294_967_295, 2, 1]), Some(4_294_967_298));
        assert_eq!(total(&[7]), Some(0));
        assert_eq!(total(&[0, 4_294_967_295, 0]), Some(4_294_967_296));
    }

    #[test]
    fn a_sum_that_64_bits_do_not_hold_is_told() {
        let total = Total { sum: u64::MAX - 3, last: 4_294_967_295 };
        assert_eq!(total.with(&2u32.to_le_bytes()), Some(Total { sum: u64::MAX, last: 2 }));
        assert_eq!(total.with(&3u32.to_le_bytes()), None);
    }

    #[test]
    fn credits_go_on_where_counters_wrap() {
        let mut chip = powered(ZERO);
        let mut credits = Credits { total_octets: 4_294_967_295, ..Credits::NONE };
        for _ in 0..2 {
            chip.step(&frame(0x100, 1000, 64, false, 0));
            chip.step(&record(8));
            credits.take_over(&mut chip.attributes);
        }
        assert_eq!(credits.total_octets, 4_294_967_295 + 128);
        assert_eq!((credits.ports[AUI][READABLE_FRAMES], credits.ports[AUI][READABLE_OCTETS]), (2, 128));
        assert_eq!(chip.attributes, ZERO);
    }

    #[test]
    fn boundary_sheet_rate_mismatch() {
        for (d, mismatches) in [(552, 0), (553, 1)] {
            let mut chip = all_passing();
            let mut bytes = burst(2, d);
            bytes[1] = 2;
            chip.step(&bytes);
            assert_eq!(counters(&chip, 1)[RATE_MISMATCHES], mismatches, "d {d}");
        }
    }

    #[test]
    fn octet_check_between_64_and_1518_a_frame() {
        assert_eq!(octet_check(2, 127), Ok(false));
        assert_eq!(octet_check(2, 128), Ok(true));
        assert_eq!(octet_check(2, 3036), Ok(true));
        assert_eq!(octet_check(2, 3037), Ok(false));
        assert_eq!(octet_check(0, 0), Ok(true));
        assert_eq!(octet_check(2_829_359, u32::MAX), Ok(false));
        assert_eq!(octet_check(2_829_360, 0), Err(10));
    }

    #[test]
    fn a_rate_error_alone_is_jam_and_no_collision() {
        let mut chip = all_passing();
        chip.step(&collision(3, 600, 0, 100));
        let mut bytes = frame(4, 600, 64, false, 0);
        bytes[1] = 2;
        assert_eq!(chip.step(&bytes), Answer::Burst(Word::Jam, 0x1fb));
        assert_eq!(counters(&chip, 2)[COLLISIONS], 0);
        assert_eq!(counters(&chip, 2)[READABLE_FRAMES], 1);
        assert_eq!((chip.ports[0].count, chip.ports[2].count), (1, 0));
    }

    #[test]
    fn a_refusal_changes_nothing() {
        let mut chip = all_passing();
        chip.step(&collision(3, 600, 0, 1025));
        chip.step(&written(4, 0x1f));
        chip.step(&written(4, 0xee));
        chip.step(&written(5, 0xaa));
        let mut bad_tick = record(3);
        bad_tick[31] = 1;
        let refused: [(Bytes, u8); 8] = [
            (record(9), 8),
            (bad_tick, 8),
            (burst(0x200, 1), 3),
            (burst(1, 0), 2),
            (burst(1, 1_000_001), 2),
            (frame(1, 7, 1, false, 0), 2),
            (burst(0, 100), 1),
            (written(4, 0x20), 7),
        ];
        for (bytes, number) in refused {
            let before = chip.clone();
            assert_eq!(chip.step(&bytes), Answer::Refused(number));
            assert!(chip == before);
        }
        assert_eq!(chip.step(&[1; 31]), Answer::Refused(9));
        assert_eq!(chip.step(&[1; 33]), Answer::Refused(9));
    }

    #[test]
    fn the_first_refusal_in_order_is_given() {
        let mut bytes = burst(0x200, 0);
        bytes[14] = 1;
        assert_eq!(powered(ZERO).step(&bytes), Answer::Refused(8));
        assert_eq!(powered(ZERO).step(&burst(0x200, 0)), Answer::Refused(3));
        assert_eq!(powered(ZERO).step(&burst(0, 0)), Answer::Refused(2));
        assert_eq!(powered(ZERO).step(&burst(0, 1)), Answer::Refused(1));
    }

    #[test]
    fn four_bytes_come_from_one_copy() {
        let mut start = ZERO;
        start.total_octets = 0xffff_fff0;
        let mut chip = powered(start);
        chip.step(&written(4, 0x00));
        chip.step(&written(4, 0xed));
        assert_eq!(chip.step(&record(7)), Answer::Value(0xf0));
        chip.step(&frame(0x100, 1000, 64, false, 0));
        assert_eq!(chip.attributes.total_octets, 0x30);
        for _ in 0..3 {
            assert_eq!(chip.step(&record(7)), Answer::Value(0xff));
        }
        assert_eq!(chip.step(&record(7)), Answer::Value(0x30));
    }
}
