//! What is told apart about joints.

use plain::{Rules, figures};
use second::check::{loads, only_joints};
use second::path::path;
use second::random::edits::Edits;
use second::{Answer, Cabinet, Sheet};

/// What came up with joints in plans that were checked, on roads that were planned, and among edits.
#[derive(Clone, Copy, Debug, PartialEq, Eq, PartialOrd, Ord)]
pub enum Joint {
    /// 15 for a service on a joint, with no cabinet overfull.
    Alone,
    /// The same where 16 applies too.
    Before16,
    /// 20 where a service is on a joint and no cabinet is overfull.
    After20,
    /// 14 where a service is on a joint.
    After14,
    /// 13 where a service is on a joint.
    After13,
    /// A road whose least cost would be less if there were no joints.
    Dearer,
    /// 12 on a road that would have a plan then.
    NoPlan,
    /// A road with the same cost, or 12, but another count then.
    Count,
    /// A joint at a root with cabinets under it.
    Root,
    /// A joint between the root and others.
    Middle,
    /// A joint without cabinets under it, but no root.
    Leaf,
    /// Joints alone, and services.
    Everywhere,
    /// Joints alone, and no service.
    NoService,
    /// A service of demand 0 without streams, on a road with joints.
    Idle,
    /// A service of demand 0 with streams, on a road with joints.
    IdleStreams,
    /// An edit that makes a joint of a cabinet, with a plan.
    MadeJoint,
    /// The same with 12.
    MadeJointNoPlan,
    /// The same of a cabinet that held a service in the plan before.
    MadeJointInUse,
    /// An edit that makes a cabinet of a joint, with a plan.
    MadeCabinet,
    /// The same with 12.
    MadeCabinetNoPlan,
    /// 23 for a plan of the tables that the check refuses for a joint alone.
    Unlike,
}

impl Joint {
    /// All that must come up.
    pub const ALL: [Joint; 21] = [
        Joint::Alone,
        Joint::Before16,
        Joint::After20,
        Joint::After14,
        Joint::After13,
        Joint::Dearer,
        Joint::NoPlan,
        Joint::Count,
        Joint::Root,
        Joint::Middle,
        Joint::Leaf,
        Joint::Everywhere,
        Joint::NoService,
        Joint::Idle,
        Joint::IdleStreams,
        Joint::MadeJoint,
        Joint::MadeJointNoPlan,
        Joint::MadeJointInUse,
        Joint::MadeCabinet,
        Joint::MadeCabinetNoPlan,
        Joint::Unlike,
    ];

    /// Those that hold.
    fn of(found: &[(Joint, bool)]) -> Vec<Joint> {
        let holding = found.iter().filter(|(_, holds)| *holds);
        holding.map(|&(joint, _)| joint).collect()
    }

    /// Of a plan that is checked, by the answer that is right.
    pub fn of_plan(sheet: &Sheet, plan: &[u16], right: Result<u64, u64>) -> Vec<Joint> {
        let cabinet = |&c: &u16| sheet.cabinets.get(usize::from(c));
        let stray = plan.iter().filter_map(cabinet).any(Cabinet::is_joint);
        let s = sheet.cabinets.len();
        match right {
            Err(13) if stray => vec![Joint::After13],
            Err(14) if stray => vec![Joint::After14],
            Err(20) if stray => {
                let loads = loads(sheet, plan, |from, to| path(sheet, from, to));
                Joint::of(&[(Joint::After20, (0..s).all(|c| loads.fits(sheet, c)))])
            }
            Err(15) if only_joints(sheet, plan) => {
                let loads = loads(sheet, plan, |from, to| path(sheet, from, to));
                let jammed = !(1..s).all(|c| loads.carries(sheet, c));
                Joint::of(&[(Joint::Alone, true), (Joint::Before16, jammed)])
            }
            _ => vec![],
        }
    }

    /// Of a road that is planned, by the answer that is right.
    pub fn of_road(sheet: &Sheet, right: &Answer) -> Vec<Joint> {
        let known = matches!(right.refusal, 0 | 12);
        if !known || !sheet.cabinets.iter().any(Cabinet::is_joint) {
            return vec![];
        }
        [Joint::of_places(sheet), Joint::of_answer(sheet, right)].concat()
    }

    /// Where the joints of a road are, and which services it has.
    fn of_places(sheet: &Sheet) -> Vec<Joint> {
        let (r, s) = (sheet.services.len(), sheet.cabinets.len());
        let joint = |c: usize| sheet.cabinets[c].is_joint();
        let inner = |p: usize| (1..s).any(|c| usize::from(sheet.cabinets[c].parent) == p);
        let all = (0..s).all(joint);
        let idle = |i: usize| sheet.services[i] == 0;
        let sends = |i: usize| {
            let ends = |stream: &second::Stream| [stream.from, stream.to].map(usize::from);
            sheet.streams.iter().any(|stream| ends(stream).contains(&i))
        };
        Joint::of(&[
            (Joint::Root, s > 1 && joint(0)),
            (Joint::Middle, (1..s).any(|c| joint(c) && inner(c))),
            (Joint::Leaf, (1..s).any(|c| joint(c) && !inner(c))),
            (Joint::Everywhere, r > 0 && all),
            (Joint::NoService, r == 0 && all),
            (Joint::Idle, (0..r).any(|i| idle(i) && !sends(i))),
            (Joint::IdleStreams, (0..r).any(|i| idle(i) && sends(i))),
        ])
    }

    /// What the answer would be if there were no joints. Those matter for services of demand 0 alone.
    fn of_answer(sheet: &Sheet, right: &Answer) -> Vec<Joint> {
        if !sheet.services.contains(&0) {
            return vec![];
        }
        let cost = right.plan.is_some().then_some(right.cost);
        let (least, count) = figures(sheet, Rules::WITHOUT_JOINTS);
        Joint::of(&[
            (Joint::Dearer, cost.is_some() && cost != least),
            (Joint::NoPlan, cost.is_none() && least.is_some()),
            (Joint::Count, cost == least && count != right.count),
        ])
    }

    /// Of the last edit of a list, after this plan or 12, and with this refusal or 0.
    pub fn of_edit(
        edits: &Edits,
        cabinet: usize,
        before: Option<&[u16]>,
        refusal: u64,
    ) -> Vec<Joint> {
        let used = before.is_some_and(|plan| plan.contains(&(cabinet as u16)));
        let (joint, boxed, planned) = (edits.made_joint(), edits.made_cabinet(), refusal == 0);
        Joint::of(&[
            (Joint::MadeJoint, joint && planned),
            (Joint::MadeJointNoPlan, joint && !planned),
            (Joint::MadeJointInUse, joint && used),
            (Joint::MadeCabinet, boxed && planned),
            (Joint::MadeCabinetNoPlan, boxed && !planned),
        ])
    }
}
