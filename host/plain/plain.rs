//! Replay, frame, both repaints, feed and changes, written plainly from documents 01 and 02 and, but
//! for changes, for speed. The 48 bytes of a feed and the packing of what the feed's calls give back are
//! in neither paper: they are the project's own. It is what the archive is compared with and timed
//! against, so it shares no code with it.
#![forbid(unsafe_code)]

use std::ops::Range;

const CHIP: usize = 12;
const HALF_RAM: usize = 320;
/// Columns of a page. As a column, the one where counting stops, and the highest in a chip.
const COLUMNS: u8 = 80;
const SEGMENTS: usize = 61;
const WIDTH: usize = 2 * SEGMENTS;
const FRAME: usize = 4 * WIDTH;
const TRACE_MAX: usize = 65_536;
const PAGE_RECORDS: usize = 2 + SEGMENTS;
const REPAINT_RECORDS: usize = 4 * PAGE_RECORDS + 2;
const FEED: usize = 48;
const ENTRY: usize = 8;

type Rows = [[u8; WIDTH]; 4];
type Halves = [[u8; HALF_RAM]; 2];

/// What a call gives back, before it is packed into 64 bits.
#[derive(Default)]
struct Outcome {
    number: u8,
    place: usize,
    compared: u32,
    differing: u32,
}

impl Outcome {
    fn new(number: u8, place: usize) -> Self {
        Outcome { number, place, ..Self::default() }
    }

    fn pack(&self) -> u64 {
        u64::from(self.number)
            + ((self.place as u64) << 8)
            + (u64::from(self.compared) << 24)
            + (u64::from(self.differing) << 40)
    }
}

#[derive(Clone, Copy)]
struct Chip {
    display: bool,
    all_lit: bool,
    duty_32: bool,
    reverse: bool,
    rmw: bool,
    page: u8,
    start_line: u8,
    column: u8,
    saved: u8,
    latch_fresh: bool,
    latch: u8,
}

/// An accepted cycle's answer; the kind is document 01's number for it.
struct Answer {
    kind: u8,
    byte: u8,
}

const WRITTEN: Answer = Answer { kind: 0, byte: 0 };

impl Chip {
    fn decode(bytes: &[u8; CHIP]) -> Option<Chip> {
        const LIMITS: [u8; CHIP] = [1, 1, 1, 1, 1, 3, 31, COLUMNS, COLUMNS, 1, 255, 0];
        let in_range = bytes.iter().zip(&LIMITS).all(|(byte, limit)| byte <= limit);
        let [display, all_lit, duty, adc, rmw, page, start_line, column, saved, mark, latch, _] = *bytes;
        if !in_range || (rmw == 0 && saved != 0) {
            return None;
        }
        Some(Chip {
            display: display == 1,
            all_lit: all_lit == 1,
            duty_32: duty == 1,
            reverse: adc == 1,
            rmw: rmw == 1,
            page,
            start_line,
            column,
            saved,
            latch_fresh: mark == 1,
            latch,
        })
    }

    fn encode(&self) -> [u8; CHIP] {
        [
            self.display.into(),
            self.all_lit.into(),
            self.duty_32.into(),
            self.reverse.into(),
            self.rmw.into(),
            self.page,
            self.start_line,
            self.column,
            self.saved,
            self.latch_fresh.into(),
            self.latch,
            0,
        ]
    }

    fn cell(&self) -> usize {
        usize::from(self.page) * usize::from(COLUMNS) + usize::from(self.column)
    }

    fn set_column(&mut self, column: u8) {
        self.column = column;
        self.latch_fresh = false;
    }

    fn command(&mut self, byte: u8) -> Result<(), u8> {
        match byte {
            0x00..=0x7F if self.rmw => return Err(8),
            0x00..=0x7F if byte >= COLUMNS => return Err(14),
            0x00..=0x7F => self.set_column(byte),
            0xA0 | 0xA1 => self.reverse = byte == 0xA1,
            0xA4 | 0xA5 => self.all_lit = byte == 0xA5,
            0xA8 | 0xA9 => self.duty_32 = byte == 0xA9,
            0xAE | 0xAF => self.display = byte == 0xAF,
            0xB8..=0xBB => {
                self.page = byte - 0xB8;
                self.latch_fresh = false;
            }
            0xC0..=0xDF => self.start_line = byte - 0xC0,
            0xE0 => {
                if !self.rmw {
                    self.rmw = true;
                    self.saved = self.column;
                }
            }
            0xE2 => {
                self.start_line = 0;
                self.page = 0;
                self.set_column(0);
            }
            0xEE => {
                if self.rmw {
                    self.set_column(self.saved);
                    self.saved = 0;
                    self.rmw = false;
                }
            }
            _ => return Err(7),
        }
        Ok(())
    }

    /// At any column it leaves the latch stale.
    fn write(&mut self, ram: &mut [u8; HALF_RAM], byte: u8) {
        self.latch_fresh = false;
        if self.column < COLUMNS {
            ram[self.cell()] = byte;
            self.column += 1;
        }
    }

    fn read(&mut self, ram: &[u8; HALF_RAM]) -> Answer {
        let answer = Answer { kind: if self.latch_fresh { 1 } else { 2 }, byte: self.latch };
        self.latch_fresh = self.column < COLUMNS;
        if self.latch_fresh {
            self.latch = ram[self.cell()];
            self.column += u8::from(!self.rmw);
        }
        answer
    }

    fn status(&self) -> u8 {
        u8::from(!self.reverse) << 6 | u8::from(!self.display) << 5
    }
}

/// The bytes as `M` rows of `N`, if there are exactly that many.
fn table<const N: usize, const M: usize>(bytes: &[u8]) -> Option<&[[u8; N]; M]> {
    let (rows, rest) = bytes.as_chunks();
    if rest.is_empty() { rows.try_into().ok() } else { None }
}

fn table_mut<const N: usize, const M: usize>(bytes: &mut [u8]) -> Option<&mut [[u8; N]; M]> {
    let (rows, rest) = bytes.as_chunks_mut();
    if rest.is_empty() { rows.try_into().ok() } else { None }
}

/// Both chips, or the refusal of the first bad one.
fn decode_chips(records: &[[u8; CHIP]; 2]) -> Result<[Chip; 2], Outcome> {
    let left = Chip::decode(&records[0]).ok_or(Outcome::new(2, 0))?;
    let right = Chip::decode(&records[1]).ok_or(Outcome::new(2, 1))?;
    Ok([left, right])
}

/// One record, or the number that refuses it. A refusal changes nothing.
#[inline]
fn cycle(chips: &mut [Chip; 2], ram: &mut Halves, record: &[u8; 4]) -> Result<Answer, u8> {
    let [lines, which, data, zero] = *record;
    if lines > 7 || zero != 0 {
        return Err(4);
    }
    let which = usize::from(which);
    let (Some(chip), Some(ram)) = (chips.get_mut(which), ram.get_mut(which)) else {
        return Err(5);
    };
    match lines {
        2 => chip.command(data).map(|()| WRITTEN),
        3 => {
            chip.write(ram, data);
            Ok(WRITTEN)
        }
        4 => Ok(Answer { kind: 3, byte: chip.status() }),
        5 => Ok(chip.read(ram)),
        _ => Err(6),
    }
}

fn run(chips: &mut [Chip; 2], ram: &mut Halves, trace: &[[u8; 4]], answers: &mut [[u8; 2]]) -> Outcome {
    let (mut compared, mut differing) = (0u32, 0u32);
    for (place, (record, slot)) in trace.iter().zip(answers).enumerate() {
        match cycle(chips, ram, record) {
            Ok(Answer { kind, byte }) => {
                *slot = [kind, byte];
                let counts = kind & 1;
                compared += u32::from(counts);
                differing += u32::from(counts & u8::from(byte != record[2]));
            }
            Err(number) => return Outcome { number, place, compared, differing },
        }
    }
    Outcome { number: 0, place: trace.len(), compared, differing }
}

fn try_replay(chips: &mut [u8], ram: &mut [u8], trace: &[u8], answers: &mut [u8]) -> Result<Outcome, Outcome> {
    let (records, rest) = trace.as_chunks();
    let slots = answers.as_chunks_mut().0;
    let (Some(chips), Some(ram)) = (table_mut(chips), table_mut(ram)) else {
        return Err(Outcome::new(1, 0));
    };
    if trace.len() > TRACE_MAX || slots.len() < records.len() {
        return Err(Outcome::new(1, 0));
    }
    let mut state = decode_chips(chips)?;
    if !rest.is_empty() {
        return Err(Outcome::new(3, records.len()));
    }
    let outcome = run(&mut state, ram, records, slots);
    *chips = state.map(|chip| chip.encode());
    Ok(outcome)
}

/// Shows one chip's RAM in its half of the frame, whose columns begin at `left`.
fn show(chip: &Chip, ram: &[u8; HALF_RAM], rows: &mut Rows, left: usize) {
    let (keep, lit) = match (chip.display, chip.all_lit, chip.duty_32) {
        (false, _, _) => (0, 0),
        (true, true, _) => (0, !0),
        (true, false, false) => (0xFFFF, 0),
        (true, false, true) => (!0, 0),
    };
    for segment in 0..SEGMENTS {
        let column = if chip.reverse { 79 - segment } else { segment };
        // Bit n is RAM line n, and after the turn row n of the frame.
        let lines = u32::from_le_bytes([ram[column], ram[80 + column], ram[160 + column], ram[240 + column]]);
        let shown = lines.rotate_right(u32::from(chip.start_line)) & keep | lit;
        for (row, byte) in rows.iter_mut().zip(shown.to_le_bytes()) {
            row[left + segment] = byte;
        }
    }
}

fn show_both(state: &[Chip; 2], ram: &Halves, rows: &mut Rows) {
    show(&state[0], &ram[0], rows, 0);
    show(&state[1], &ram[1], rows, SEGMENTS);
}

fn try_frame(chips: &[u8], ram: &[u8], frame: &mut [u8]) -> Result<Outcome, Outcome> {
    let (Some(chips), Some(ram), Some(rows)) = (table(chips), table(ram), table_mut(frame)) else {
        return Err(Outcome::new(1, 0));
    };
    show_both(&decode_chips(chips)?, ram, rows);
    Ok(Outcome::new(0, FRAME))
}

/// Refuses by the lowest number that keeps either chip from being repainted.
fn check_ready(state: &[Chip; 2]) -> Result<(), Outcome> {
    let causes: [(u8, fn(&Chip) -> bool); 4] = [
        (9, |chip| !chip.display || chip.all_lit),
        (10, |chip| chip.duty_32),
        (11, |chip| chip.start_line != 0 && chip.start_line != 16),
        (12, |chip| chip.rmw),
    ];
    for (number, holds) in causes {
        if let Some(place) = state.iter().position(holds) {
            return Err(Outcome::new(number, place));
        }
    }
    Ok(())
}

/// A hidden page of a chip, and the band of the picture that goes there.
struct Canvas<'a> {
    chip: &'a Chip,
    which: u8,
    page: u8,
    pixels: &'a [u8],
}

impl<'a> Canvas<'a> {
    /// Canvas n of the four, in the order in which they are painted.
    fn at(n: usize, state: &'a [Chip; 2], picture: &'a [[u8; WIDTH]; 2]) -> Self {
        let (which, row) = (n / 2, n % 2);
        let chip = &state[which];
        let hidden = if chip.start_line == 0 { 2 } else { 0 };
        let pixels = &picture[row][which * SEGMENTS..][..SEGMENTS];
        Canvas { chip, which: which as u8, page: hidden + row as u8, pixels }
    }

    /// The lowest of the 61 columns that are shown.
    fn first_column(&self) -> u8 {
        if self.chip.reverse { 19 } else { 0 }
    }

    /// The picture's byte for the n-th of them.
    fn pixel(&self, n: usize) -> u8 {
        self.pixels[if self.chip.reverse { SEGMENTS - 1 - n } else { n }]
    }

    fn set_page(&self) -> [u8; 4] {
        [2, self.which, 0xB8 + self.page, 0]
    }

    fn set_column(&self, n: usize) -> [u8; 4] {
        [2, self.which, self.first_column() + n as u8, 0]
    }

    fn write(&self, n: usize) -> [u8; 4] {
        [3, self.which, self.pixel(n), 0]
    }
}

/// The two records that turn the start lines.
fn turns(state: &[Chip; 2]) -> [[u8; 4]; 2] {
    [0, 1].map(|which| [2, which as u8, 0xC0 + (16 - state[which].start_line), 0])
}

fn try_repaint(chips: &[u8], picture: &[u8], output: &mut [u8]) -> Result<Outcome, Outcome> {
    let (Some(chips), Some(picture)) = (table(chips), table::<WIDTH, 2>(picture)) else {
        return Err(Outcome::new(1, 0));
    };
    let Some(records) = output.as_chunks_mut().0.get_mut(..REPAINT_RECORDS) else {
        return Err(Outcome::new(1, 0));
    };
    let state = decode_chips(chips)?;
    check_ready(&state)?;

    let (pages, last) = records.split_at_mut(4 * PAGE_RECORDS);
    for (n, page_records) in pages.chunks_exact_mut(PAGE_RECORDS).enumerate() {
        let canvas = Canvas::at(n, &state, picture);
        page_records[0] = canvas.set_page();
        page_records[1] = canvas.set_column(0);
        for (n, record) in page_records[2..].iter_mut().enumerate() {
            *record = canvas.write(n);
        }
    }
    last.copy_from_slice(&turns(&state));
    Ok(Outcome::new(0, REPAINT_RECORDS))
}

/// Bit n is set where the n-th shown column of the page does not hold the picture's byte.
fn differences(canvas: &Canvas, ram: &Halves) -> u64 {
    let page = usize::from(canvas.page) * usize::from(COLUMNS) + usize::from(canvas.first_column());
    let held = &ram[usize::from(canvas.which)][page..][..SEGMENTS];
    let mut bits = 0;
    for (n, &byte) in held.iter().enumerate() {
        bits |= u64::from(byte != canvas.pixel(n)) << n;
    }
    bits
}

/// The longest runs of set bits, the lowest first. At most 61 bits are set, so no shift is over 63.
fn runs_of(mut bits: u64) -> Vec<Range<usize>> {
    let mut runs = Vec::new();
    let mut end = 0;
    while bits != 0 {
        let start = end + bits.trailing_zeros() as usize;
        bits >>= bits.trailing_zeros();
        end = start + bits.trailing_ones() as usize;
        bits >>= bits.trailing_ones();
        runs.push(start..end);
    }
    runs
}

fn try_sparing(chips: &[u8], ram: &[u8], picture: &[u8], output: &mut [u8]) -> Result<Outcome, Outcome> {
    let (Some(chips), Some(ram), Some(picture)) = (table(chips), table(ram), table(picture)) else {
        return Err(Outcome::new(1, 0));
    };
    let room = output.as_chunks_mut().0;
    if room.len() < REPAINT_RECORDS {
        return Err(Outcome::new(1, 0));
    }
    let state = decode_chips(chips)?;
    check_ready(&state)?;

    let mut records = Vec::with_capacity(REPAINT_RECORDS);
    for n in 0..4 {
        let canvas = Canvas::at(n, &state, picture);
        let runs = runs_of(differences(&canvas, ram));
        if !runs.is_empty() {
            records.push(canvas.set_page());
        }
        for run in runs {
            records.push(canvas.set_column(run.start));
            records.extend(run.map(|n| canvas.write(n)));
        }
    }
    records.extend(turns(&state));
    room[..records.len()].copy_from_slice(&records);
    Ok(Outcome::new(0, records.len()))
}

/// All records taken, or the refusal of the first that is not.
type Taken = Result<(), Outcome>;

/// The fields of a feed's bytes, whatever they hold.
#[derive(Default)]
struct Feed {
    chips: [[u8; CHIP]; 2],
    kept_count: u8,
    kept: [u8; 3],
    stopped: u8,
    number: u8,
    zeros: [u8; 2],
    place: u32,
    records: u32,
    compared: u32,
    differing: u32,
}

impl Feed {
    fn decode(bytes: &[u8; FEED]) -> Feed {
        let (chips, fields) = bytes.split_at(2 * CHIP);
        let number_at = |at: usize| u32::from_le_bytes([bytes[at], bytes[at + 1], bytes[at + 2], bytes[at + 3]]);
        Feed {
            chips: *table(chips).expect("24 bytes"),
            kept_count: fields[0],
            kept: [fields[1], fields[2], fields[3]],
            stopped: fields[4],
            number: fields[5],
            zeros: [fields[6], fields[7]],
            place: number_at(32),
            records: number_at(36),
            compared: number_at(40),
            differing: number_at(44),
        }
    }

    fn encode(&self) -> [u8; FEED] {
        let mut bytes = [0; FEED];
        bytes[..2 * CHIP].copy_from_slice(self.chips.as_flattened());
        bytes[24] = self.kept_count;
        bytes[25..28].copy_from_slice(&self.kept);
        bytes[28] = self.stopped;
        bytes[29] = self.number;
        bytes[30..32].copy_from_slice(&self.zeros);
        let numbers = [self.place, self.records, self.compared, self.differing];
        for (slot, number) in bytes[32..].chunks_exact_mut(4).zip(numbers) {
            slot.copy_from_slice(&number.to_le_bytes());
        }
        bytes
    }

    /// A stopped feed's number and place once more, in place of all that the call would do.
    fn refuse_if_stopped(&self) -> Result<(), Outcome> {
        if self.stopped == 1 { Err(Outcome::new(self.number, self.place as usize)) } else { Ok(()) }
    }

    /// The chips of an open feed, or number 2.
    fn check(&self) -> Result<[Chip; 2], Outcome> {
        let state = decode_chips(&self.chips)?;
        let sound = self.kept_count <= 3
            && self.compared <= self.records
            && self.differing <= self.compared
            && self.stopped == 0
            && self.zeros == [0, 0]
            && self.number == 0
            && self.place == 0;
        if sound { Ok(state) } else { Err(Outcome::new(2, 3)) }
    }

    fn stop(&mut self, number: u8, place: usize) {
        self.stopped = 1;
        self.number = number;
        self.place = place as u32;
    }

    fn keep(&mut self, bytes: &[u8]) {
        self.kept = [0; 3];
        self.kept[..bytes.len()].copy_from_slice(bytes);
        self.kept_count = bytes.len() as u8;
    }

    /// Runs records as replay does and counts them; a refused one stops the feed.
    fn run(&mut self, state: &mut [Chip; 2], ram: &mut Halves, trace: &[[u8; 4]], slots: &mut [[u8; 2]]) -> Taken {
        let outcome = run(state, ram, trace, slots);
        self.records += outcome.place as u32;
        self.compared += outcome.compared;
        self.differing += outcome.differing;
        if outcome.number == 0 {
            return Ok(());
        }
        self.keep(&[]);
        self.stop(outcome.number, self.records as usize);
        self.refuse_if_stopped()
    }

    /// Takes a part that is not refused as a whole: first the record that the kept bytes begin, if they
    /// do, then those that lie whole in the part, and keeps the rest.
    fn take(&mut self, state: &mut [Chip; 2], ram: &mut Halves, part: &[u8], slots: &mut [[u8; 2]]) -> Taken {
        let begun = usize::from(self.kept_count);
        let mut record = [0; 4];
        record[..begun].copy_from_slice(&self.kept[..begun]);
        let missing = if begun == 0 { 0 } else { 4 - begun };
        if part.len() < missing {
            let now = begun + part.len();
            record[begun..now].copy_from_slice(part);
            self.keep(&record[..now]);
            return Ok(());
        }
        let (end, rest) = part.split_at(missing);
        record[4 - missing..].copy_from_slice(end);
        let straddling = usize::from(begun > 0);
        let (first, others) = slots.split_at_mut(straddling);
        self.run(state, ram, &[record][..straddling], first)?;
        let (records, unfinished) = rest.as_chunks();
        self.run(state, ram, records, others)?;
        self.keep(unfinished);
        Ok(())
    }
}

fn feed_record(bytes: &mut [u8]) -> Result<&mut [u8; FEED], Outcome> {
    bytes.try_into().map_err(|_| Outcome::new(1, 0))
}

fn try_open(feed: &mut [u8], chips: &[u8]) -> Result<Outcome, Outcome> {
    let record = feed_record(feed)?;
    let chips = table(chips).ok_or(Outcome::new(1, 0))?;
    let mut feed = Feed { chips: *chips, ..Feed::default() };
    let checked = decode_chips(chips);
    if let Err(refusal) = &checked {
        feed.stop(refusal.number, refusal.place);
    }
    *record = feed.encode();
    checked.map(|_| Outcome::new(0, 0))
}

fn try_part(feed: &mut [u8], ram: &mut [u8], part: &[u8], answers: &mut [u8]) -> Result<Outcome, Outcome> {
    let record = feed_record(feed)?;
    let mut feed = Feed::decode(record);
    feed.refuse_if_stopped()?;
    let completed = (usize::from(feed.kept_count) + part.len()) / 4;
    let ram = table_mut(ram).ok_or(Outcome::new(1, 0))?;
    let slots = answers.as_chunks_mut().0;
    if part.len() > TRACE_MAX || slots.len() < completed {
        return Err(Outcome::new(1, 0));
    }
    if u64::from(feed.records) + completed as u64 > u64::from(u32::MAX) {
        return Err(Outcome::new(13, 0));
    }
    let mut state = feed.check()?;
    let taken = feed.take(&mut state, ram, part, slots);
    feed.chips = state.map(|chip| chip.encode());
    *record = feed.encode();
    taken.map(|()| Outcome::new(0, feed.records as usize))
}

fn try_close(feed: &mut [u8]) -> Result<Outcome, Outcome> {
    let record = feed_record(feed)?;
    let mut feed = Feed::decode(record);
    feed.refuse_if_stopped()?;
    feed.check()?;
    let number = if feed.kept_count > 0 { 3 } else { 0 };
    feed.stop(number, feed.records as usize);
    *record = feed.encode();
    Ok(Outcome::new(number, feed.records as usize))
}

/// How many pixels differ in the half of the frame whose columns begin at `left`.
fn changed(before: &Rows, after: &Rows, left: usize) -> u16 {
    let mut pixels = 0;
    for (old, new) in before.iter().zip(after) {
        for x in left..left + SEGMENTS {
            pixels += (old[x] ^ new[x]).count_ones();
        }
    }
    pixels as u16
}

fn entry(record: usize, left: u16, right: u16) -> [u8; ENTRY] {
    let mut bytes = [0; ENTRY];
    bytes[..4].copy_from_slice(&(record as u32).to_le_bytes());
    bytes[4..6].copy_from_slice(&left.to_le_bytes());
    bytes[6..].copy_from_slice(&right.to_le_bytes());
    bytes
}

/// The entries of all records, or the refusal of the first that is not taken. Every frame is drawn whole.
fn list_changes(state: &mut [Chip; 2], ram: &mut Halves, trace: &[[u8; 4]]) -> Result<Vec<[u8; ENTRY]>, Outcome> {
    let mut listed = Vec::new();
    let (mut before, mut after) = ([[0; WIDTH]; 4], [[0; WIDTH]; 4]);
    show_both(state, ram, &mut before);
    for (place, record) in trace.iter().enumerate() {
        cycle(state, ram, record).map_err(|number| Outcome::new(number, place))?;
        show_both(state, ram, &mut after);
        if after != before {
            listed.push(entry(place, changed(&before, &after, 0), changed(&before, &after, SEGMENTS)));
        }
        before = after;
    }
    Ok(listed)
}

/// Chips and RAM are copied, and the entries kept until all is known: a refusal changes nothing.
fn try_changes(chips: &[u8], ram: &[u8], trace: &[u8], entries: &mut [u8]) -> Result<Outcome, Outcome> {
    let (records, rest) = trace.as_chunks();
    let (Some(chips), Some(ram)) = (table(chips), table(ram)) else {
        return Err(Outcome::new(1, 0));
    };
    if trace.len() > TRACE_MAX {
        return Err(Outcome::new(1, 0));
    }
    let mut state = decode_chips(chips)?;
    if !rest.is_empty() {
        return Err(Outcome::new(3, records.len()));
    }
    let listed = list_changes(&mut state, &mut ram.clone(), records)?;
    let Some(slots) = entries.as_chunks_mut().0.get_mut(..listed.len()) else {
        return Err(Outcome::new(15, listed.len()));
    };
    slots.copy_from_slice(&listed);
    Ok(Outcome::new(0, listed.len()))
}

fn pack(outcome: Result<Outcome, Outcome>) -> u64 {
    let (Ok(outcome) | Err(outcome)) = outcome;
    outcome.pack()
}

pub fn replay(chips: &mut [u8], ram: &mut [u8], trace: &[u8], answers: &mut [u8]) -> u64 {
    pack(try_replay(chips, ram, trace, answers))
}

pub fn frame(chips: &[u8], ram: &[u8], frame: &mut [u8]) -> u64 {
    pack(try_frame(chips, ram, frame))
}

pub fn repaint(chips: &[u8], picture: &[u8], output: &mut [u8]) -> u64 {
    pack(try_repaint(chips, picture, output))
}

pub fn sparing_repaint(chips: &[u8], ram: &[u8], picture: &[u8], output: &mut [u8]) -> u64 {
    pack(try_sparing(chips, ram, picture, output))
}

pub fn feed_open(feed: &mut [u8], chips: &[u8]) -> u64 {
    pack(try_open(feed, chips))
}

pub fn feed_part(feed: &mut [u8], ram: &mut [u8], part: &[u8], answers: &mut [u8]) -> u64 {
    pack(try_part(feed, ram, part, answers))
}

pub fn feed_close(feed: &mut [u8]) -> u64 {
    pack(try_close(feed))
}

pub fn changes(chips: &[u8], ram: &[u8], trace: &[u8], entries: &mut [u8]) -> u64 {
    pack(try_changes(chips, ram, trace, entries))
}
