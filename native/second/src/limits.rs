//! The limits of a planning sheet and the sizes of its parts, and those of a tariff and its bill.

/// The most services, r.
pub const SERVICES: usize = 10;
/// The most cabinets, s; the least is 1.
pub const CABINETS: usize = 200;
/// The most streams, q.
pub const STREAMS: usize = 100;
/// The most barred pairs; repeated pairs count each.
pub const MAX_PAIRS: usize = 2_000;
/// The largest demand, capacity or price.
pub const AMOUNT: u16 = 10_000;
/// The parent that the root names.
pub const NO_PARENT: u16 = 65_535;

/// Bytes of the header.
pub const HEADER: usize = 16;
/// Bytes of a service record.
pub const SERVICE: usize = 2;
/// Bytes of a cabinet record.
pub const CABINET: usize = 14;
/// Bytes of a stream record.
pub const STREAM: usize = 6;
/// Bytes of the count word that the block of barred pairs begins with.
pub const COUNT: usize = 2;
/// Bytes of a barred pair.
pub const PAIR: usize = 4;

/// Bytes of the longest tidy copy.
pub const LONGEST_COPY: usize =
    HEADER + SERVICE * SERVICES + CABINET * CABINETS + STREAM * STREAMS + COUNT + PAIR * MAX_PAIRS;

/// The highest block price and the highest slot price of a tariff, in cents.
pub const TARIFF_PRICE: u64 = 10_000;
/// The highest tax rate of a tariff, in thousandths.
pub const TAX_RATE: u64 = 1_000;
/// Units of load of a whole block.
pub const BLOCK: u64 = 100;

/// Lines of the longest bill.
pub const MOST_LINES: usize = 2 * (CABINETS - 1) + SERVICES;
