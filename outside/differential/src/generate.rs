//! The calls to make: rounds of stages, each with its own kind of tables and arguments.

use crate::case::{self, Case, Lent, HEADERS, LENGTHS, OUTCOMES, PAGE, PAGES};
use crate::damage::{damaged, DAMAGES};
use crate::draft::{some_clock, Draft, SHAPES};
use crate::layout;
use crate::random::Random;
use independent::{sound, FILE_PAGES, HEADER_SLOTS, OUTCOMES_LEN};
use linked::Kind;

/// What a stage tries.
#[derive(Clone, Copy)]
enum Stage {
    /// A run of requests that begins with Format.
    Fresh,
    /// A run of requests on sound tables made directly.
    Made,
    /// Requests on damaged tables.
    Damaged,
    /// Every length of every buffer, on the tables of the stage before.
    Lengths,
    /// Every outcome byte at every step, going on with the tables of the stage before.
    OutcomeBytes,
    /// Every page number, going on with the tables of the stage before.
    PageNumbers,
}

/// The stages of a round with their numbers of requests: in 20,000 requests, each list of things
/// to try that a stage goes through in order comes to its end.
const ROUND: [(Stage, usize); 9] = [
    (Stage::Fresh, 45),
    (Stage::OutcomeBytes, 16),
    (Stage::Made, 25),
    (Stage::OutcomeBytes, 16),
    (Stage::Lengths, 16),
    (Stage::Made, 25),
    (Stage::OutcomeBytes, 16),
    (Stage::PageNumbers, 12),
    (Stage::Damaged, 24),
];

/// Requests in a run, with more that make files than that destroy them.
const FREQUENT: [Kind; 14] = [
    Kind::Create,
    Kind::Create,
    Kind::Create,
    Kind::Write,
    Kind::Write,
    Kind::Write,
    Kind::Read,
    Kind::Read,
    Kind::Info,
    Kind::Destroy,
    Kind::SetExpiry,
    Kind::SetExpiry,
    Kind::Scavenge,
    Kind::Look,
];

/// Requests on each damaged tables.
const ON_DAMAGED: usize = 2;

/// Makes one call after the other.
pub struct Generator {
    random: Random,
    /// The next call; its tables are to be left as the call leaves them.
    pub case: Case,
    stage: usize,
    left: usize,
    favourite: Kind,
    /// Sound tables to return to after calls with buffers of other lengths.
    whole: [Vec<u8>; 2],
    shapes_tried: usize,
    lengths_tried: usize,
    outcomes_tried: usize,
    numbers_tried: usize,
    damages_tried: usize,
}

/// A header that a request may be about.
struct Target {
    id: u32,
    owner: u16,
    expires: u32,
    number: u8,
}

impl Generator {
    /// A generator whose calls are all decided by this seed.
    pub fn new(seed: u64) -> Generator {
        Generator {
            random: Random::new(seed),
            case: Case::zero(),
            stage: ROUND.len() - 1,
            left: 0,
            favourite: Kind::Create,
            whole: Default::default(),
            shapes_tried: 0,
            lengths_tried: 0,
            outcomes_tried: 0,
            numbers_tried: 0,
            damages_tried: 0,
        }
    }

    /// Prepares the next call.
    pub fn advance(&mut self) {
        if matches!(ROUND[self.stage].0, Stage::Lengths) {
            self.restore_tables();
        }
        let begins = self.left == 0;
        if begins {
            self.stage = (self.stage + 1) % ROUND.len();
            self.left = ROUND[self.stage].1;
            self.case.shift = self.random.below(16);
            self.favourite = self.random.pick(&Kind::ALL[1..]);
        }
        match ROUND[self.stage].0 {
            Stage::Fresh => self.fresh(begins),
            Stage::Made => self.made(begins),
            Stage::Damaged => self.damaged(),
            Stage::Lengths => self.length(begins),
            Stage::OutcomeBytes => self.outcome_byte(),
            Stage::PageNumbers => self.page_number(),
        }
        self.left -= 1;
    }

    fn fresh(&mut self, begins: bool) {
        let kind = if begins {
            Kind::Format
        } else if !self.has_live_file() && self.random.percent(70) {
            Kind::Create
        } else {
            self.some_kind()
        };
        self.prepare(kind);
    }

    fn made(&mut self, begins: bool) {
        if begins {
            let shape = SHAPES[self.shapes_tried % SHAPES.len()];
            self.shapes_tried += 1;
            let clock = some_clock(&mut self.random);
            let draft = Draft::random(&mut self.random, shape, clock);
            let [headers, pages, ..] = &mut self.case.lent;
            draft.pack(&mut headers.bytes, &mut pages.bytes);
            assert!(
                sound(&headers.bytes, &pages.bytes),
                "made tables are not sound"
            );
        }
        let kind = self.some_kind();
        self.prepare(kind);
    }

    fn damaged(&mut self) {
        if self.left.is_multiple_of(ON_DAMAGED) {
            let damage = self.damages_tried % DAMAGES;
            self.damages_tried += 1;
            let [headers, pages, ..] = &mut self.case.lent;
            damaged(
                &mut self.random,
                damage,
                &mut headers.bytes,
                &mut pages.bytes,
            );
        }
        let kind = self.random.pick(&Kind::ALL);
        self.prepare(kind);
        if self.random.percent(20) {
            // Damaged comes before ClockBack.
            self.case.time = self.random.within(0, 50);
        }
    }

    fn length(&mut self, begins: bool) {
        if begins {
            self.save_tables();
        }
        let kind = Kind::ALL[self.lengths_tried % Kind::ALL.len()];
        self.prepare(kind);
        let buffers = case::buffers(kind);
        let tried = self.lengths_tried / Kind::ALL.len();
        self.lengths_tried += 1;
        self.lend_wrongly(buffers[tried % buffers.len()], tried / buffers.len());
    }

    fn save_tables(&mut self) {
        for buffer in [HEADERS, PAGES] {
            self.whole[buffer].clone_from(&self.case.lent[buffer].bytes);
        }
    }

    fn restore_tables(&mut self) {
        for buffer in [HEADERS, PAGES] {
            self.case.lent[buffer].bytes.clone_from(&self.whole[buffer]);
            self.case.lent[buffer].null = false;
        }
    }

    /// Lends a buffer in one of the ways that are BadCall.
    fn lend_wrongly(&mut self, buffer: usize, way: usize) {
        let length = LENGTHS[buffer];
        let shorter = self.random.below(length);
        let longer = length + 1 + self.random.below(4096);
        match way % 9 {
            0 => self.case.lent[buffer] = Lent::null(),
            1 => self.resize(buffer, 0),
            2 => self.resize(buffer, 1),
            3 => self.resize(buffer, length - 1),
            4 => self.resize(buffer, length + 1),
            5 => self.resize(buffer, shorter),
            6 => self.resize(buffer, longer),
            7 => self.case.lent.swap(buffer, buffer ^ 1),
            _ => {
                for &buffer in case::buffers(self.case.kind) {
                    self.case.lent[buffer] = Lent::null();
                }
            }
        }
    }

    /// Lends fewer bytes, or more with anything after the right ones.
    fn resize(&mut self, buffer: usize, length: usize) {
        let bytes = &mut self.case.lent[buffer].bytes;
        let right = bytes.len().min(length);
        bytes.resize(length, 0);
        if self.random.percent(50) {
            self.random.fill(&mut bytes[right..]);
        }
    }

    fn outcome_byte(&mut self) {
        // Each pair of a step and a byte comes up once before any comes up again.
        let pair = self.outcomes_tried % (OUTCOMES_LEN * 256);
        self.outcomes_tried += 1;
        let kind = self.random.pick(&Kind::ALL[1..8]);
        self.prepare(kind);
        let outcomes = &mut self.case.lent[OUTCOMES].bytes;
        outcomes.fill(0);
        outcomes[pair % OUTCOMES_LEN] = (pair / OUTCOMES_LEN) as u8;
    }

    fn page_number(&mut self) {
        let kinds = [Kind::Create, Kind::Write, Kind::Read, Kind::Look];
        let kind = kinds[self.numbers_tried % kinds.len()];
        self.prepare(kind);
        self.case.number = (self.numbers_tried / kinds.len()) as u8;
        self.numbers_tried += 1;
    }

    fn some_kind(&mut self) -> Kind {
        if self.random.percent(1) {
            return Kind::Format;
        }
        if self.random.percent(25) {
            return self.favourite;
        }
        self.random.pick(&FREQUENT)
    }

    /// Chooses all arguments of a request, with a view to the tables as they are.
    fn prepare(&mut self, kind: Kind) {
        self.case.kind = kind;
        let target = self.some_target();
        self.case.time = self.some_time(&target);
        self.case.client = self.some_client(&target);
        self.case.id = self.some_id(&target);
        self.case.number = self.some_number(&target);
        self.case.expires = self.some_expiry(&target);
        for buffer in [OUTCOMES, PAGE] {
            let lent = &mut self.case.lent[buffer];
            lent.null = false;
            lent.bytes.resize(LENGTHS[buffer], 0);
        }
        self.some_outcomes();
        self.random.fill(&mut self.case.lent[PAGE].bytes);
    }

    /// The places of the headers in use that are live at this time.
    fn live_at(&self, time: u32) -> impl Iterator<Item = usize> + '_ {
        let headers = &self.case.lent[HEADERS].bytes;
        (0..HEADER_SLOTS).filter(move |&place| {
            let record = &headers[layout::record(place)];
            layout::get(record, layout::IN_USE) == 1 && layout::get(record, layout::EXPIRES) > time
        })
    }

    fn has_live_file(&self) -> bool {
        self.live_at(self.clock()).next().is_some()
    }

    /// One of the headers in use, mostly a live one; the first record if there is none.
    fn some_target(&mut self) -> Target {
        let mostly_live = self.random.percent(85);
        let time = if mostly_live { self.clock() } else { 0 };
        let places: Vec<usize> = self.live_at(time).collect();
        let place = self.random.pick_or(&places, 0);
        let record = &self.case.lent[HEADERS].bytes[layout::record(place)];
        let named = |number: &usize| layout::get(record, layout::page_id(*number)) != 0;
        let numbers: Vec<usize> = (0..FILE_PAGES).filter(named).collect();
        Target {
            id: layout::get(record, layout::ID),
            owner: layout::get(record, layout::OWNER) as u16,
            expires: layout::get(record, layout::EXPIRES),
            number: self.random.pick_or(&numbers, 0) as u8,
        }
    }

    fn clock(&self) -> u32 {
        layout::get(&self.case.lent[HEADERS].bytes, layout::CLOCK)
    }

    fn next_id(&self) -> u32 {
        layout::get(&self.case.lent[HEADERS].bytes, layout::NEXT_ID)
    }

    fn some_time(&mut self, target: &Target) -> u32 {
        let clock = self.clock();
        // A jump to a far expiry would leave no live file for the rest of the run.
        let expiry = target.expires.clamp(clock, clock.saturating_add(100));
        match self.random.below(1000) {
            0..=649 => clock,
            650..=899 => clock.saturating_add(self.random.within(1, 3)),
            900..=929 => clock.saturating_add(self.random.within(4, 60)),
            930..=944 => clock.max(expiry.saturating_sub(1)),
            945..=959 => expiry,
            960..=989 => clock.saturating_sub(1),
            990..=997 => self.random.within(0, clock),
            998 => self.random.word(),
            _ => u32::MAX,
        }
    }

    fn some_client(&mut self, target: &Target) -> u16 {
        match self.random.below(10) {
            0 => self.random.pick(&[7, 8, 0, 65535, target.owner ^ 0x100]),
            _ => target.owner,
        }
    }

    fn some_id(&mut self, target: &Target) -> u32 {
        match self.random.below(40) {
            0 => 0,
            1 => self.next_id(),
            2 => self.next_id().wrapping_sub(1),
            3 => target.id | 1 << 31,
            4 => self.random.pick(&[1 << 31, u32::MAX]),
            5 => self.random.word(),
            6 => target.id ^ 1,
            _ => target.id,
        }
    }

    fn some_number(&mut self, target: &Target) -> u8 {
        match self.random.below(100) {
            0 => self.random.within(16, 255) as u8,
            1..=35 => self.random.below(FILE_PAGES) as u8,
            _ => target.number,
        }
    }

    fn some_expiry(&mut self, target: &Target) -> u32 {
        let now = self.case.time;
        match self.random.below(20) {
            0 => now,
            1 => now.saturating_sub(self.random.within(1, 40)),
            2 => u32::MAX,
            3 => 0,
            4 | 5 => target.expires,
            6 => target.expires.saturating_add(1),
            7 => target.expires.saturating_sub(1),
            8 => now.saturating_add(1),
            _ => now.saturating_add(self.random.within(1, 200)),
        }
    }

    fn some_outcomes(&mut self) {
        let outcomes = &mut self.case.lent[OUTCOMES].bytes;
        outcomes.fill(0);
        match self.random.below(100) {
            0..=59 => {}
            60..=79 => outcomes[self.random.below(5)] = self.random.within(1, 2) as u8,
            80..=89 => outcomes[self.random.below(OUTCOMES_LEN)] = self.random.within(1, 2) as u8,
            90..=98 => outcomes
                .iter_mut()
                .for_each(|outcome| *outcome = self.random.pick(&[0, 0, 0, 0, 0, 1, 1, 2])),
            _ => self.random.fill(outcomes),
        }
    }
}
