//! Jobs with faults: one for each row of the refusal table, alone or together.

use reference::job::LAST_STATION;

use crate::Random;
use crate::draft::{A, B, Draft, E, FIELDS, KIND, N, S, header_length, number_bytes, range};

/// One way to break a job.
#[derive(Clone, Copy, Debug)]
pub enum Fault {
    /// The bytes end before or inside a number.
    Ends,
    /// A number is not in the number form.
    Form,
    /// A number is outside its range.
    Range,
    /// Bytes are left over.
    LeftOver,
    /// A reached hazard is too near.
    Near,
    /// An envelope leaves the road: no fault by itself, and it hides none.
    Off,
    /// A hazard is too near and its envelope leaves the road.
    NearAndOff,
    /// The side is above 1.
    Side,
    /// The output is short.
    Output,
}

pub const FAULTS: [Fault; 9] = [
    Fault::Ends,
    Fault::Form,
    Fault::Range,
    Fault::LeftOver,
    Fault::Near,
    Fault::Off,
    Fault::NearAndOff,
    Fault::Side,
    Fault::Output,
];

/// Sides above 1, some of them 0 or 1 in 32 bits.
pub const BAD_SIDES: [u64; 5] = [2, 3, 1 << 32, (1 << 32) + 1, u64::MAX];

/// The greatest value that a number's bytes can have; no field takes it.
pub const GREATEST_READ: u64 = (1 << 42) - 1;

/// The ends of what 32 bits, five bytes and six bytes hold, and what is just
/// above the greatest station.
pub const GREAT_VALUES: [u64; 6] = [
    (1 << 32) - 1,
    1 << 32,
    (1 << 35) - 1,
    1 << 35,
    LAST_STATION + 1,
    GREATEST_READ,
];

/// A job in the making: its numbers, some of them with other bytes than their
/// own, and what comes before and behind.
pub struct Broken {
    pub numbers: Vec<u64>,
    pub replaced: Vec<(usize, Vec<u8>)>,
    pub cut: Option<usize>,
    pub tail: Vec<u8>,
    pub side: u64,
    pub short_output: bool,
}

impl Broken {
    pub fn new(draft: &Draft, side: u64) -> Broken {
        Broken {
            numbers: draft.numbers(),
            replaced: Vec::new(),
            cut: None,
            tail: Vec::new(),
            side,
            short_output: false,
        }
    }

    pub fn bytes(&self) -> Vec<u8> {
        let mut bytes = Vec::new();
        for (place, value) in self.numbers.iter().enumerate() {
            match self.replaced.iter().find(|(at, _)| *at == place) {
                Some((_, other)) => bytes.extend(other),
                None => bytes.extend(number_bytes(&[*value])),
            }
        }
        bytes.extend(&self.tail);
        bytes.truncate(self.cut.unwrap_or(bytes.len()));
        bytes
    }

    pub fn add(&mut self, fault: Fault, random: &mut Random) {
        match fault {
            Fault::Ends => self.cut = Some(random.index(self.bytes().len() + 1)),
            Fault::Form => self.break_form(random),
            Fault::Range => self.leave_range(random),
            Fault::LeftOver => {
                let count = random.between(1, 4);
                self.tail = (0..count).map(|_| random.draw() as u8).collect();
            }
            Fault::Near => {
                let hazard = self.pick_hazard(random);
                self.come_near(hazard);
            }
            Fault::Off => {
                let hazard = self.pick_hazard(random);
                self.leave_road(hazard);
            }
            Fault::NearAndOff => {
                let hazard = self.pick_hazard(random);
                self.come_near(hazard);
                self.leave_road(hazard);
            }
            Fault::Side => self.side = random.pick(&BAD_SIDES),
            Fault::Output => self.short_output = true,
        }
    }

    fn break_form(&mut self, random: &mut Random) {
        let place = random.index(self.numbers.len());
        let forms = wrong_forms(self.numbers[place]);
        let form = random.index(forms.len());
        self.replaced.push((place, forms[form].clone()));
    }

    fn leave_range(&mut self, random: &mut Random) {
        let place = random.index(self.numbers.len());
        let (low, high) = range(&self.numbers, place);
        let outside = [high + 1, GREATEST_READ, low.wrapping_sub(1)];
        // Below a least value of 0 there is nothing.
        let choices = if low == 0 { 2 } else { 3 };
        self.replaced
            .push((place, number_bytes(&[outside[random.index(choices)]])));
    }

    /// Where the hazards begin.
    fn header_length(&self) -> usize {
        header_length(self.numbers[KIND])
    }

    pub fn hazard_count(&self) -> usize {
        (self.numbers.len() - self.header_length()) / FIELDS
    }

    fn pick_hazard(&self, random: &mut Random) -> usize {
        random.index(self.hazard_count())
    }

    /// n = 0 is below M + D and below C, whatever these are.
    pub fn come_near(&mut self, hazard: usize) {
        self.set_field(hazard, N, 0);
    }

    /// From one end of the road to the other: any approach length leaves it.
    pub fn leave_road(&mut self, hazard: usize) {
        self.set_field(hazard, S, self.numbers[A]);
        self.set_field(hazard, E, self.numbers[B]);
    }

    fn set_field(&mut self, hazard: usize, field: usize, value: u64) {
        if hazard < self.hazard_count() {
            let first = self.header_length() + FIELDS * hazard;
            self.numbers[first + field] = value;
        }
    }
}

/// Bytes in the place of a number that are not in the number form: not the
/// shortest, or a sixth byte with the top bit set.
pub fn wrong_forms(value: u64) -> Vec<Vec<u8>> {
    let shortest = number_bytes(&[value]);
    let mut forms = Vec::new();
    for length in shortest.len() + 1..=8 {
        forms.push(lengthened(&shortest, length));
    }
    for before in [0x80, 0xFF] {
        // Of five bytes and of six.
        for length in [4, 5] {
            forms.push([vec![before; length], vec![0x00]].concat());
        }
        for sixth in [0x80, 0x81, 0x9F, 0xA0, 0xFF] {
            forms.push([vec![before; 5], vec![sixth]].concat());
        }
        // A seventh byte behind it.
        forms.push([vec![before; 6], vec![0x01]].concat());
        forms.push(vec![before; 9]);
    }
    forms
}

/// The same value in more groups than it needs.
fn lengthened(shortest: &[u8], length: usize) -> Vec<u8> {
    let mut bytes = shortest.to_vec();
    bytes.resize(length, 0);
    for byte in &mut bytes[..length - 1] {
        *byte |= 0x80;
    }
    bytes
}
