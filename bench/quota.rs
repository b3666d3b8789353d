//! Quota groups in plain Rust: relations, limits, and what is reserved. The only subvolume is 5.
use crate::format::{Part, counter_item, limit_item, relation_item, status_item};
use crate::refuse;
use std::collections::{BTreeMap, BTreeSet};
use std::fmt::Write as _;

/// The subvolume's group.
const OF_SUBVOLUME: u64 = 5;

/// The most groups and relations.
const MOST_GROUPS: usize = 4096;
const MOST_RELATIONS: usize = 16384;

/// What is counted and limited, in this order: referenced bytes and exclusive ones.
const COUNTED: [&str; 2] = ["rfer", "excl"];

#[derive(Default)]
pub struct Group {
    /// The generation of the commit that last changed its counters.
    pub changed: u64,
    /// What the last commit counted.
    pub counts: [u64; 2],
    pub limits: [Option<u64>; 2],
    pub parents: BTreeSet<u64>,
    /// What was reserved since the last commit.
    held: u64,
}

/// Groups by their numbers. There are none while quota is off.
#[derive(Default)]
pub struct Quota {
    pub on: bool,
    pub groups: BTreeMap<u64, Group>,
}

/// A change of groups.
#[derive(Clone, Copy)]
pub enum Change {
    On,
    Off,
    Create(u64),
    Destroy(u64),
    /// Of a member and its parent.
    Assign(u64, u64),
    Remove(u64, u64),
    /// Of a group, the place of what is limited, and the limit.
    Limit(u64, usize, Option<u64>),
}

pub fn level(group: u64) -> u64 {
    group >> 48
}

fn name(group: u64) -> String {
    format!("{}/{}", level(group), group & ((1 << 48) - 1))
}

fn number(name: &str) -> u64 {
    let (level, id) = name.split_once('/').expect("a group");
    let [level, id] = [level, id].map(|word| word.parse::<u64>().expect("a number"));
    (level << 48) + id
}

impl Change {
    /// The change that a line asks for, if it asks for one.
    pub fn of(words: &[&str]) -> Option<Change> {
        Some(match *words {
            ["quota", "on"] => Change::On,
            ["quota", "off"] => Change::Off,
            ["qgroup", "create", group] => Change::Create(number(group)),
            ["qgroup", "destroy", group] => Change::Destroy(number(group)),
            ["assign", member, parent] => Change::Assign(number(member), number(parent)),
            ["remove", member, parent] => Change::Remove(number(member), number(parent)),
            ["limit", which, group, most] => {
                let place = COUNTED.iter().position(|it| *it == which).expect("rfer or excl");
                let most = (most != "none").then(|| most.parse().expect("a number"));
                Change::Limit(number(group), place, most)
            }
            _ => return None,
        })
    }
}

impl Quota {
    fn has(&self, group: u64) -> bool {
        self.groups.contains_key(&group)
    }

    fn are_related(&self, member: u64, parent: u64) -> bool {
        self.groups.get(&member).is_some_and(|group| group.parents.contains(&parent))
    }

    fn has_members(&self, group: u64) -> bool {
        self.groups.values().any(|other| other.parents.contains(&group))
    }

    fn relations(&self) -> usize {
        self.groups.values().map(|group| group.parents.len()).sum()
    }

    /// Why a change is refused, if it is.
    pub fn check(&self, change: Change) -> Result<(), String> {
        if let Change::On = change {
            return refuse(self.on, "no on");
        }
        refuse(!self.on, "no off")?;
        match change {
            Change::On | Change::Off => Ok(()),
            Change::Create(group) => {
                refuse(level(group) == 0, "no level")?;
                refuse(self.has(group), "no there")?;
                refuse(self.groups.len() >= MOST_GROUPS, "no many")
            }
            Change::Destroy(group) => {
                refuse(!self.has(group), "no group")?;
                refuse(group == OF_SUBVOLUME || self.has_members(group), "no busy")
            }
            Change::Assign(member, parent) => {
                refuse(level(member) >= level(parent), "no level")?;
                refuse(!self.has(member) || !self.has(parent), "no group")?;
                refuse(self.are_related(member, parent), "no related")?;
                refuse(self.relations() >= MOST_RELATIONS, "no many")
            }
            Change::Remove(member, parent) => refuse(!self.are_related(member, parent), "no unrelated"),
            Change::Limit(group, ..) => refuse(!self.has(group), "no group"),
        }
    }

    /// Does a change that isn't refused, which this generation brings.
    pub fn make(&mut self, change: Change, generation: u64) {
        let new = || Group { changed: generation, ..Group::default() };
        match change {
            Change::On => *self = Quota { on: true, groups: BTreeMap::from([(OF_SUBVOLUME, new())]) },
            Change::Off => *self = Quota::default(),
            Change::Create(group) => {
                self.groups.insert(group, new());
            }
            Change::Destroy(group) => {
                self.groups.remove(&group);
            }
            Change::Assign(member, parent) => {
                self.group(member).parents.insert(parent);
            }
            Change::Remove(member, parent) => {
                self.group(member).parents.remove(&parent);
            }
            Change::Limit(group, place, most) => self.group(group).limits[place] = most,
        }
    }

    fn group(&mut self, number: u64) -> &mut Group {
        self.groups.get_mut(&number).expect("a group that is there")
    }

    /// A group that is there and all that lie above it, each once.
    fn above(&self, group: u64) -> BTreeSet<u64> {
        let mut above = BTreeSet::from([group]);
        let mut pending = vec![group];
        while let Some(next) = pending.pop() {
            for parent in &self.groups[&next].parents {
                if above.insert(*parent) {
                    pending.push(*parent);
                }
            }
        }
        above
    }

    /// The groups in which so many bytes of the subvolume are to be held. It is refused where one of them would be over
    /// a limit of its.
    pub fn room(&self, bytes: u64) -> Result<BTreeSet<u64>, String> {
        if !self.on {
            return Ok(BTreeSet::new());
        }
        let above = self.above(OF_SUBVOLUME);
        for number in &above {
            let group = &self.groups[number];
            for ((count, limit), which) in group.counts.iter().zip(group.limits).zip(COUNTED) {
                if limit.is_some_and(|most| count + group.held + bytes > most) {
                    return Err(format!("no quota {} {which}", name(*number)));
                }
            }
        }
        Ok(above)
    }

    /// Holds so many bytes in each of these groups.
    pub fn hold(&mut self, groups: &BTreeSet<u64>, bytes: u64) {
        for number in groups {
            self.group(*number).held += bytes;
        }
    }

    /// Counts each group at a commit, where the subvolume takes so many bytes. Nothing is held then.
    pub fn count(&mut self, bytes: u64, generation: u64) {
        if !self.on {
            return;
        }
        let above = self.above(OF_SUBVOLUME);
        for (number, group) in &mut self.groups {
            let counts = if above.contains(number) { [bytes; 2] } else { [0; 2] };
            if group.counts != counts {
                group.counts = counts;
                group.changed = generation;
            }
            group.held = 0;
        }
    }

    /// The quota tree's items as of a commit, and none while quota is off.
    pub fn items(&self, generation: u64) -> Vec<Part> {
        if !self.on {
            return Vec::new();
        }
        let mut items = vec![status_item(generation)];
        items.extend(self.groups.iter().map(|(number, group)| counter_item(*number, group.changed, group.counts)));
        items.extend(self.groups.iter().map(|(number, group)| limit_item(*number, group.limits)));
        let mut pairs = Vec::new();
        for (member, group) in &self.groups {
            pairs.extend(group.parents.iter().flat_map(|parent| [(*member, *parent), (*parent, *member)]));
        }
        pairs.sort_unstable();
        items.extend(pairs.into_iter().map(|(one, other)| relation_item(one, other)));
        items
    }

    /// The reply to `show`.
    pub fn shown(&self) -> Result<String, String> {
        refuse(!self.on, "no off")?;
        let mut reply = String::new();
        for (number, group) in &self.groups {
            let [rfer, excl] = group.counts;
            let most = group.limits.map(|limit| limit.map_or("none".to_string(), |most| most.to_string()));
            writeln!(reply, "{} {rfer} {excl} {}", name(*number), most.join(" ")).unwrap();
        }
        Ok(reply + "ok")
    }
}
