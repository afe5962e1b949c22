//! What the calls answer.

/// Codes of the faults, as they stand in PFSR.
pub const BUS_ERROR: u32 = 3;
pub const SEGMENT_FAULT: u32 = 4;
pub const PAGE_FAULT: u32 = 5;
pub const SUPERVISOR_VIOLATION: u32 = 6;
pub const WRITE_VIOLATION: u32 = 7;

/// The most transactions one access can list.
pub const TRANSACTIONS: usize = 6;

/// A well-formed access that could not be done.
#[derive(Clone, Copy, Debug, PartialEq, Eq)]
pub struct Fault {
    pub code: u32,
    pub address: u32,
}

impl Fault {
    pub fn new(code: u32, address: u32) -> Self {
        Fault { code, address }
    }

    pub fn bus_error(address: u32) -> Self {
        Fault::new(BUS_ERROR, address)
    }
}

/// How an access ended.
#[derive(Clone, Copy, Debug, PartialEq, Eq)]
pub enum Outcome {
    Idle,
    Word(u32),
    Written,
    Fault(Fault),
}

/// What goes beside the address of a transaction.
pub mod signal {
    pub const WRITE: u32 = 1 << 0;
    pub const GLOBAL: u32 = 1 << 1;
    pub const INTENT: u32 = 1 << 2;
    pub const LOCK: u32 = 1 << 3;
    pub const INHIBIT: u32 = 1 << 4;
}

/// One transaction on the memory bus. Of a failed one the word count is 0.
#[derive(Clone, Copy, Debug, Default, PartialEq, Eq)]
pub struct Transaction {
    pub signals: u32,
    pub address: u32,
    pub words: u32,
}

/// What one access moved on the bus: its transactions in order, and the count
/// of words, to which a command adds words that it does not list.
#[derive(Clone, Copy, Debug, Default, PartialEq, Eq)]
pub struct Traffic {
    list: [Transaction; TRANSACTIONS],
    count: u32,
    words: u32,
}

impl Traffic {
    pub fn transactions(&self) -> &[Transaction] {
        self.list.get(..self.count as usize).unwrap_or(&self.list)
    }

    pub fn words(&self) -> u32 {
        self.words
    }

    pub(crate) fn list(&mut self, transaction: Transaction) {
        if let Some(place) = self.list.get_mut(self.count as usize) {
            *place = transaction;
            self.count += 1;
            self.words += transaction.words;
        }
    }

    pub(crate) fn add_unlisted(&mut self, words: u32) {
        self.words += words;
    }
}

/// The answer of an access.
#[derive(Clone, Copy, Debug, PartialEq, Eq)]
pub struct Answer {
    pub outcome: Outcome,
    pub traffic: Traffic,
}

impl Answer {
    /// The answer as the 24 words of the C interface.
    pub fn reply(&self) -> [u32; 24] {
        let mut reply = [0; 24];
        self.write_reply(&mut reply);
        reply
    }

    /// Writes all of the 24 words where they are wanted.
    pub fn write_reply(&self, reply: &mut [u32; 24]) {
        let (outcome, value, address) = match self.outcome {
            Outcome::Idle => (0, 0, 0),
            Outcome::Word(word) => (1, word, 0),
            Outcome::Written => (2, 0, 0),
            Outcome::Fault(fault) => (3, fault.code, fault.address),
        };
        let list = self.traffic.transactions();
        reply[0] = outcome;
        reply[1] = value;
        reply[2] = address;
        reply[3] = self.traffic.words();
        reply[4] = list.len() as u32;
        reply[5..].fill(0);
        for (place, transaction) in reply[5..].chunks_exact_mut(3).zip(list) {
            place.copy_from_slice(&[transaction.signals, transaction.address, transaction.words]);
        }
    }
}

/// What a snoop tells the other master.
#[derive(Clone, Copy, Debug, PartialEq, Eq)]
pub enum Snooped {
    Clear,
    Retry,
    Failed,
}

impl Snooped {
    /// The answer as the word of the C interface.
    pub fn reply(self) -> u32 {
        match self {
            Snooped::Clear => 0,
            Snooped::Retry => 1,
            Snooped::Failed => 2,
        }
    }
}
