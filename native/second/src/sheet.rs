//! The records of a sheet, by number.

/// What an accepted sheet says: the demand of each service, each cabinet, each stream, and the
/// barred pairs as they stand.
#[derive(Clone, Debug, Default, PartialEq, Eq)]
pub struct Sheet {
    pub services: Vec<u16>,
    pub cabinets: Vec<Cabinet>,
    pub streams: Vec<Stream>,
    pub barred: Vec<Pair>,
}

/// A cabinet and the link to its parent.
#[derive(Clone, Copy, Debug, Default, PartialEq, Eq)]
pub struct Cabinet {
    pub parent: u16,
    pub capacity: u16,
    pub price: u16,
    pub up_capacity: u16,
    pub up_price: u16,
    pub down_capacity: u16,
    pub down_price: u16,
}

/// A stream from one service to another.
#[derive(Clone, Copy, Debug, Default, PartialEq, Eq)]
pub struct Stream {
    pub from: u16,
    pub to: u16,
    pub demand: u16,
}

/// A service and a cabinet that it is barred from.
#[derive(Clone, Copy, Debug, Default, PartialEq, Eq)]
pub struct Pair {
    pub service: u16,
    pub cabinet: u16,
}

impl Sheet {
    /// The entries that each table needs: one for each set of services on each cabinet.
    pub fn entries(&self) -> usize {
        self.cabinets.len() << self.services.len()
    }
}

impl Cabinet {
    /// It is a joint without a power box: no service may be placed on it, whatever its demand.
    /// Streams pass through it.
    pub fn is_joint(&self) -> bool {
        self.capacity == 0
    }

    /// The cabinet with these words in the order of the sheet.
    pub fn from_words(words: [u16; 7]) -> Cabinet {
        let [
            parent,
            capacity,
            price,
            up_capacity,
            up_price,
            down_capacity,
            down_price,
        ] = words;
        Cabinet {
            parent,
            capacity,
            price,
            up_capacity,
            up_price,
            down_capacity,
            down_price,
        }
    }

    /// The words of the record in the order of the sheet.
    pub fn words(&self) -> [u16; 7] {
        [
            self.parent,
            self.capacity,
            self.price,
            self.up_capacity,
            self.up_price,
            self.down_capacity,
            self.down_price,
        ]
    }
}

impl Stream {
    /// The stream with these words in the order of the sheet.
    pub fn from_words([from, to, demand]: [u16; 3]) -> Stream {
        Stream { from, to, demand }
    }

    /// The words of the record in the order of the sheet.
    pub fn words(&self) -> [u16; 3] {
        [self.from, self.to, self.demand]
    }
}

impl Pair {
    /// The pair with these words in the order of the sheet.
    pub fn from_words([service, cabinet]: [u16; 2]) -> Pair {
        Pair { service, cabinet }
    }

    /// The words of the pair in the order of the sheet.
    pub fn words(&self) -> [u16; 2] {
        [self.service, self.cabinet]
    }
}
