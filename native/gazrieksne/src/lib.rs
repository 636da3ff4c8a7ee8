//! The proved planner for tree-shaped toll roads, in safe Rust.
//!
//! The functions here answer with Rust's own types; `calls` has the same functions in the shape
//! of the C interface, whose header, `gazrieksne.h`, tells what a sheet, a plan and a refusal are.

pub mod calls;
mod planning;
mod raw;
mod refusal;
mod span;

pub use planning::{Planned, edit, edit_span, keep, keep_span, plan, plan_span};
pub use refusal::{Group, Refusal};
pub use span::Span;

/// An output of so many bytes suffices for the tidy copy of any sheet.
pub const LONGEST_COPY: usize = 11_438;

/// The highest block price and the highest slot price of a tariff, in cents.
pub const MAX_PRICE: u64 = 10_000;

/// The highest tax rate of a tariff, in thousandths.
pub const MAX_RATE: u64 = 1_000;

/// So many places suffice for the lines of any bill.
pub const MOST_LINES: usize = 408;

/// The numbers of services, cabinets, streams and barred pairs of an accepted sheet.
#[derive(Clone, Copy, Debug, PartialEq, Eq)]
pub struct Counts {
    pub services: usize,
    pub cabinets: usize,
    pub streams: usize,
    pub pairs: usize,
}

impl Counts {
    /// The entries that each table of the planner needs.
    pub fn entries(&self) -> usize {
        self.cabinets << self.services
    }

    /// The lines of a bill: two for each cabinet but the root, and one for each service.
    pub fn lines(&self) -> usize {
        2 * (self.cabinets - 1) + self.services
    }
}

/// A cabinet and the link to its parent; the root's parent is 65535. One of capacity 0 is a joint:
/// no service may be placed on it, whatever its demand, and streams pass through it.
#[derive(Clone, Copy, Debug, PartialEq, Eq)]
pub struct Cabinet {
    pub parent: u64,
    pub capacity: u64,
    pub price: u64,
    pub up_capacity: u64,
    pub up_price: u64,
    pub down_capacity: u64,
    pub down_price: u64,
}

/// A stream from one service to another.
#[derive(Clone, Copy, Debug, PartialEq, Eq)]
pub struct Stream {
    pub from: u64,
    pub to: u64,
    pub demand: u64,
}

/// A service and a cabinet that it is barred from.
#[derive(Clone, Copy, Debug, PartialEq, Eq)]
pub struct Pair {
    pub service: u64,
    pub cabinet: u64,
}

/// What the carrier charges.
#[derive(Clone, Copy, Debug, PartialEq, Eq)]
pub struct Tariff {
    /// Cents for each started block of 100 units of load, up to `MAX_PRICE`.
    pub block_price: u64,
    /// Cents for each unit of a service's demand, up to `MAX_PRICE`.
    pub slot_price: u64,
    /// Thousandths of the net, up to `MAX_RATE`.
    pub tax_rate: u64,
}

/// The figures of a bill, in cents.
#[derive(Clone, Copy, Debug, PartialEq, Eq)]
pub struct Bill {
    pub net: u64,
    pub tax: u64,
    pub total: u64,
}

/// Reads a sheet.
pub fn read(sheet: &[u8]) -> Result<Counts, Refusal> {
    let mut counts = [0; 5];
    let number = calls::read(sheet, &mut counts);
    let [group, services, cabinets, streams, pairs] = counts;
    match Refusal::of(number, group, 0) {
        Some(refusal) => Err(refusal),
        None => Ok(Counts {
            services: services as usize,
            cabinets: cabinets as usize,
            streams: streams as usize,
            pairs: pairs as usize,
        }),
    }
}

/// The demand of a service, if the sheet is accepted and has it.
pub fn service(sheet: &[u8], number: usize) -> Option<u64> {
    let mut record = [0; 1];
    (calls::service(sheet, number, &mut record) == 1).then_some(record[0])
}

/// A cabinet, if the sheet is accepted and has it.
pub fn cabinet(sheet: &[u8], number: usize) -> Option<Cabinet> {
    let mut record = [0; 7];
    let found = calls::cabinet(sheet, number, &mut record) == 1;
    let [
        parent,
        capacity,
        price,
        up_capacity,
        up_price,
        down_capacity,
        down_price,
    ] = record;
    found.then_some(Cabinet {
        parent,
        capacity,
        price,
        up_capacity,
        up_price,
        down_capacity,
        down_price,
    })
}

/// A stream, if the sheet is accepted and has it.
pub fn stream(sheet: &[u8], number: usize) -> Option<Stream> {
    let mut record = [0; 3];
    let found = calls::stream(sheet, number, &mut record) == 1;
    let [from, to, demand] = record;
    found.then_some(Stream { from, to, demand })
}

/// A barred pair as it stands in the sheet, if the sheet is accepted and has it.
pub fn barred(sheet: &[u8], number: usize) -> Option<Pair> {
    let mut record = [0; 2];
    let found = calls::barred(sheet, number, &mut record) == 1;
    let [service, cabinet] = record;
    found.then_some(Pair { service, cabinet })
}

/// The cost of a plan that gives each service a cabinet, but none a joint. The framing of streams takes
/// line, which the links must have room for, and costs nothing.
pub fn check(sheet: &[u8], plan: &[u16]) -> Result<u64, Refusal> {
    let mut answer = [0; 2];
    let number = calls::check(sheet, plan, &mut answer);
    let [group, cost] = answer;
    Refusal::of(number, group, 0).map_or(Ok(cost), Err)
}

/// Makes the carrier's monthly bill of a plan. Its lines are written to the first places,
/// `Counts::lines` of them: for each cabinet from 1 the link up and then down, the blocks that its
/// load starts at the block price, framing included; then for each service its demand at the slot
/// price. Places behind them stay as they are, and in a refusal all do. The net is the sum of the
/// lines, the tax is the net's share to the nearest cent, a half upward, and the total is both.
pub fn bill(
    sheet: &[u8],
    plan: &[u16],
    tariff: Tariff,
    lines: &mut [u64],
) -> Result<Bill, Refusal> {
    let Tariff {
        block_price,
        slot_price,
        tax_rate,
    } = tariff;
    let mut answer = [0; 4];
    let number = calls::bill(
        sheet,
        plan,
        block_price,
        slot_price,
        tax_rate,
        lines,
        &mut answer,
    );
    let [group, net, tax, total] = answer;
    Refusal::of(number, group, 0).map_or(Ok(Bill { net, tax, total }), Err)
}

/// Writes the tidy copy of a sheet to the first bytes of the output and gives its length. Bytes
/// behind it stay as they are, and in a refusal all do.
pub fn tidy(sheet: &[u8], output: &mut [u8]) -> Result<usize, Refusal> {
    let mut answer = [0; 2];
    let number = calls::tidy(sheet, output, &mut answer);
    let [group, length] = answer;
    Refusal::of(number, group, 0).map_or(Ok(length as usize), Err)
}

/// The figure and the flag of one split; a figure above 10^15 is 'none'.
pub fn weigh(best: u64, placed: u64, rest: u64, link: u64) -> (u64, bool) {
    let mut answer = [0; 1];
    let flag = calls::weigh(best, placed, rest, link, &mut answer);
    (answer[0], flag == 1)
}

/// The bound on the splits weighed.
pub fn bound(services: usize, cabinets: usize) -> Result<u64, Refusal> {
    let mut answer = [0; 2];
    let number = calls::bound(services, cabinets, &mut answer);
    let [group, bound] = answer;
    Refusal::of(number, group, 0).map_or(Ok(bound), Err)
}
