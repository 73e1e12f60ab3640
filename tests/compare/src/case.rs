//! One call of an entry point, and what each side answers to it.

use crate::packed::{self, state_of};
use second::{Answer, Code, Refusal, Report};
use shared::bits::ones;
use shared::random::Random;
use std::io::{self, Write};

/// The proved engine, behind its C interface. A call lends buffers that do not overlap, and the engine keeps none.
mod proved {
    extern "C" {
        pub fn gazenohyri_encode(n: usize, data: *const u8, data_len: usize, frame: *mut u8, frame_len: usize) -> u32;
        pub fn gazenohyri_decode(
            n: usize,
            allowance: usize,
            received: *const u8,
            received_len: usize,
            frame: *mut u8,
            frame_len: usize,
            block: *mut u8,
            block_len: usize,
        ) -> u32;
        pub fn gazenohyri_read(n: usize, frame: *const u8, frame_len: usize, data: *mut u8, data_len: usize) -> u32;
        pub fn gazenohyri_receive(
            state: u64,
            piece: *const u8,
            piece_len: usize,
            frame: *mut u8,
            frame_len: usize,
        ) -> u64;
        pub fn probe_word(
            n: usize,
            received: *const u8,
            received_len: usize,
            word: *mut u8,
            word_len: usize,
            block: *mut u8,
            block_len: usize,
        ) -> u32;
        pub fn probe_locate(n: usize, checks: u32, block: *mut u8, block_len: usize) -> u32;
        pub fn probe_row(n: usize, frame: *const u8, len: usize, i: usize, part: *mut u8, part_len: usize) -> usize;
    }
}

#[derive(Clone, Copy, Debug, PartialEq, Eq)]
pub enum Entry {
    Decode,
    Word,
    Encode,
    Read,
    Row,
    Locate,
    Receive,
}

impl Entry {
    /// The bytes of the block that a call is lent: four for each of its numbers.
    pub fn block_bytes(self) -> usize {
        match self {
            Entry::Decode => 20,
            Entry::Word | Entry::Locate => 12,
            Entry::Encode | Entry::Read | Entry::Row | Entry::Receive => 0,
        }
    }

    /// What a block holds after the call.
    pub fn block(self, told: Told) -> Vec<u8> {
        let mut block = vec![0; self.block_bytes()];
        self.fill(&mut block, told);
        block
    }

    /// The low byte of each number first. In that of decode the number that is returned comes before the others.
    fn fill(self, block: &mut [u8], told: Told) {
        let [a, b, c, d] = told.counts;
        let all = [told.number as u32, a, b, c, d];
        let numbers = if self == Entry::Decode { &all[..] } else { &all[1..] };
        let bytes = block.chunks_exact_mut(4).zip(numbers);
        bytes.for_each(|(bytes, number)| bytes.copy_from_slice(&number.to_le_bytes()));
    }
}

/// What the rules have a call tell: its number, and up to four more.
#[derive(Clone, Copy, Debug, PartialEq, Eq)]
pub struct Told {
    /// That of the rules; of row, the length of the part; of receive, the state that comes back.
    pub number: u64,
    /// Of a frame passes, bits, rows and columns; of a word how many places were changed, and these.
    pub counts: [u32; 4],
}

impl Told {
    pub fn number(number: u64) -> Told {
        Told { number, counts: [0; 4] }
    }

    /// Of a frame: the number, passes, bits, rows and columns.
    pub fn frame([number, passes, bits, rows, columns]: [usize; 5]) -> Told {
        Told { number: number as u64, counts: [passes, bits, rows, columns].map(|count| count as u32) }
    }

    /// Of a word that has a codeword within two: the places, rising.
    pub fn places(places: &[usize]) -> Told {
        let place = |index| places.get(index).map_or(0, |&place| place as u32);
        Told { number: 0, counts: [places.len() as u32, place(0), place(1), 0] }
    }
}

impl From<Refusal> for Told {
    fn from(refusal: Refusal) -> Told {
        Told::number(refusal.number().into())
    }
}

impl From<Report> for Told {
    fn from(report: Report) -> Told {
        let number = report.number() as usize;
        Told::frame([number, report.passes, report.bits, report.bad_rows, report.bad_columns])
    }
}

impl From<Answer> for Told {
    fn from(answer: Answer) -> Told {
        match answer {
            Answer::Codeword => Told::places(&[]),
            Answer::OnePlace(place) => Told::places(&[place]),
            Answer::TwoPlaces(first, second) => Told::places(&[first, second]),
            Answer::NoCodeword => Told::number(answer.number().into()),
        }
    }
}

/// Where the lent block is: next to the output, or apart from it.
#[derive(Clone, Copy, Debug)]
pub enum BlockAt {
    Before,
    Behind,
    Apart,
}

#[derive(Clone, Debug)]
pub struct Case {
    pub entry: Entry,
    pub n: usize,
    /// The allowance of decode, the i of row, the checks of locate; else zero.
    pub argument: usize,
    /// The state of receive, which has this n; else zero.
    pub state: u64,
    /// Of receive, the piece.
    pub input: Vec<u8>,
    /// What the lent output holds before the call; of receive, the frame.
    pub output: Vec<u8>,
    /// What the lent block holds before the call; there is none where the entry point asks for none.
    pub block: Vec<u8>,
    pub block_at: BlockAt,
}

/// What a side said, and what it left in the output and the block.
#[derive(Clone, Debug, PartialEq, Eq)]
pub struct Said {
    /// What it returned.
    pub number: u64,
    pub block: Vec<u8>,
    pub output: Vec<u8>,
    /// It wrote to the input, or beside the output and the block.
    pub stray: bool,
}

impl Said {
    /// The numbers of the block.
    pub fn in_block(&self) -> Vec<u32> {
        let number = |bytes: &[u8]| bytes.iter().rev().fold(0, |number, &byte| number << 8 | u32::from(byte));
        self.block.chunks_exact(4).map(number).collect()
    }
}

impl Case {
    /// A case whose output of `output_len` bytes holds a random pattern, and its block too.
    pub fn new(random: &mut Random, entry: Entry, n: usize, input: Vec<u8>, output_len: usize) -> Case {
        let (output, block) = (random.bytes(output_len), random.bytes(entry.block_bytes()));
        let block_at = [BlockAt::Before, BlockAt::Behind, BlockAt::Apart][random.below(3)];
        Case { entry, n, argument: 0, state: 0, input, output, block, block_at }
    }

    /// A piece, and what the lent frame holds before it.
    pub fn receive(state: u64, piece: Vec<u8>, frame: Vec<u8>) -> Case {
        let (entry, n, block, block_at) = (Entry::Receive, state_of(state).n, Vec::new(), BlockAt::Behind);
        Case { entry, n, argument: 0, state, input: piece, output: frame, block, block_at }
    }

    pub fn with(self, argument: usize) -> Case {
        Case { argument, ..self }
    }

    pub fn with_block(self, block: Vec<u8>) -> Case {
        Case { block, ..self }
    }

    /// The order in which one case is smaller than another.
    pub fn size(&self) -> (usize, usize, [usize; 4], u64, &[u8], &[u8]) {
        let lengths = [self.input.len(), self.output.len(), self.block.len(), self.argument];
        (self.n, ones(&self.input), lengths, self.state, &self.input, &self.output)
    }

    /// What the second program returns and leaves. It knows of no block: its length is looked at here, and it is filled here.
    pub fn call_second(&self, code: &Code, output: &mut [u8], block: &mut [u8]) -> u64 {
        if block.len() != self.entry.block_bytes() {
            return 11;
        }
        let told = self.tell(code, output);
        self.entry.fill(block, told);
        told.number
    }

    fn tell(&self, code: &Code, output: &mut [u8]) -> Told {
        let (n, input, none) = (self.n, &self.input, |()| Told::number(0));
        match self.entry {
            Entry::Encode => code.encode(n, input, output).map_or_else(Told::from, none),
            Entry::Read => code.read(n, input, output).map_or_else(Told::from, none),
            Entry::Decode => code.decode(n, self.argument, input, output).map_or_else(Told::from, Told::from),
            Entry::Word => code.decode_word(n, input, output).map_or_else(Told::from, Told::from),
            Entry::Row => {
                let part = second::row(n, input, self.argument);
                if part.len() == output.len() {
                    output.copy_from_slice(part);
                }
                Told::number(part.len() as u64)
            }
            Entry::Locate => match u16::try_from(self.argument / 2) {
                Ok(remainder) => {
                    code.answer_to(n, remainder, self.argument % 2 == 1).map_or_else(Told::from, Told::from)
                }
                Err(_) => code.answer_to(n, 0, false).map_or_else(Told::from, |_| Told::number(2)),
            },
            Entry::Receive => Told::number(packed::said(self.state, state_of(self.state).receive(input, output))),
        }
    }

    pub fn call_proved(&self, input: &[u8], output: &mut [u8], block: &mut [u8]) -> u64 {
        let (n, i, from, len) = (self.n, self.argument, input.as_ptr(), input.len());
        let (to, to_len) = (output.as_mut_ptr(), output.len());
        let (block, block_len) = (block.as_mut_ptr(), block.len());
        // SAFETY: all are good for their lengths, and do not overlap.
        unsafe {
            match self.entry {
                Entry::Encode => proved::gazenohyri_encode(n, from, len, to, to_len).into(),
                Entry::Read => proved::gazenohyri_read(n, from, len, to, to_len).into(),
                Entry::Decode => proved::gazenohyri_decode(n, i, from, len, to, to_len, block, block_len).into(),
                Entry::Word => proved::probe_word(n, from, len, to, to_len, block, block_len).into(),
                Entry::Row => proved::probe_row(n, from, len, i, to, to_len) as u64,
                Entry::Locate => proved::probe_locate(n, i as u32, block, block_len).into(),
                Entry::Receive => proved::gazenohyri_receive(self.state, from, len, to, to_len),
            }
        }
    }

    pub fn second(&self, code: &Code) -> Said {
        let (mut output, mut block) = (self.output.clone(), self.block.clone());
        let number = self.call_second(code, &mut output, &mut block);
        Said { number, block, output, stray: false }
    }

    /// As tests/host/replay.c reads it: eleven numbers, the input, and the output where it is touched. No word, row, checks or
    /// piece, and no block of another length.
    pub fn write(&self, said: &Said, sink: &mut dyn Write) -> io::Result<()> {
        let entry = match self.entry {
            _ if said.number == 11 => return Ok(()),
            Entry::Encode => 0,
            Entry::Decode => 1,
            Entry::Read => 2,
            Entry::Word | Entry::Row | Entry::Locate | Entry::Receive => return Ok(()),
        };
        let refused = matches!(said.number, 1..=6 | 10);
        assert!(!refused || said.output == self.output, "the second program refuses, and writes");
        let output = if refused { &[] } else { &said.output[..] };
        let lengths = [self.input.len(), self.output.len(), output.len()];
        let mut numbers = [&[entry, self.n, self.argument], &lengths[..], &[said.number as usize]].concat();
        numbers.extend(said.in_block().iter().skip(1).map(|&count| count as usize));
        numbers.resize(11, 0);
        numbers.iter().try_for_each(|number| sink.write_all(&number.to_le_bytes()))?;
        sink.write_all(&self.input)?;
        sink.write_all(output)
    }

    /// Lends the proved engine an output and a block with a margin about them, and one between them where they lie apart.
    pub fn proved(&self) -> Said {
        const MARGIN: [u8; 19] = [0xa5; 19];
        let (output, block) = (&self.output[..], &self.block[..]);
        let (first, between, second) = match self.block_at {
            BlockAt::Before => (block, &[][..], output),
            BlockAt::Behind => (output, &[][..], block),
            BlockAt::Apart => (output, &MARGIN[..], block),
        };
        let mut room = [&MARGIN, first, between, second, &MARGIN].concat();
        let (before, rest) = room.split_at_mut(MARGIN.len());
        let (first, rest) = rest.split_at_mut(first.len());
        let (between, rest) = rest.split_at_mut(between.len());
        let (second, after) = rest.split_at_mut(second.len());
        let (output, block) = if matches!(self.block_at, BlockAt::Before) { (second, first) } else { (first, second) };
        let input = self.input.clone();
        let number = self.call_proved(&input, output, block);
        let mut margins = before.iter().chain(&*between).chain(&*after);
        let stray = input != self.input || margins.any(|&byte| byte != 0xa5);
        Said { number, block: block.to_vec(), output: output.to_vec(), stray }
    }
}
