//! Damage to a sound table, so that it is refused 2, 3 or 4 on a frame of any
//! kind on which that can occur. Each [`Damage`] breaks one rule; a session has
//! one of them in turn, so that few sessions have all.

use super::rng::Rng;
use super::skeleton::field;
use crate::renumber::references;
use crate::rules::{limits, used_fields};
use crate::table::{element_flag, kind, operation, role, Frame, NONE};

#[derive(Clone, Copy, Debug)]
pub enum Damage {
    /// A flag of this kind out of range.
    Flag(u8),
    /// An unused field of this kind.
    Unused(u8),
    UnknownKind,
    StepCount,
    /// A frame before one of a lower kind.
    Order,
    /// A field of this kind, at this place, that refers wrongly.
    Reference(u8, usize, Wrong),
    /// An action whose steps are of another element or do not all exist.
    FirstStep,
    /// An association of an interface's event output.
    InterfaceOutput,
    /// A step on the variables of an element that is not basic.
    StepOutside,
    Priority,
    LocalPriority,
    /// An element with this flag has one more of this kind and flag.
    Added(u8, u8, u8),
    /// An element with this flag has one less of this kind.
    Lost(u8, u8),
    /// The variable of a delay has this role.
    DelayVariable(u8),
    /// A frame of this kind twice.
    Repeated(u8),
    /// A ninth variable for an event input (0) or output (1).
    Ninth(u8),
    /// A destination connected from another variable too.
    Destination,
    /// Any change at all, which may leave the table sound.
    Anyhow,
}

/// How a reference is wrong.
#[derive(Clone, Copy, PartialEq, Eq, Debug)]
pub enum Wrong {
    /// What it names does not exist.
    Missing,
    /// What it names is of another element; or is an element of another kind.
    OtherOwner,
    /// What it names is a variable of its element, but of this role.
    Role(u8),
}

/// All damages, to be done in turn.
pub fn all() -> Vec<Damage> {
    let mut all = vec![Damage::UnknownKind, Damage::StepCount, Damage::Order, Damage::Anyhow];
    for kind in 1..=kind::LAST {
        if kind != kind::EVENT_INPUT {
            all.push(Damage::Flag(kind));
        }
        all.push(Damage::Unused(kind));
    }
    all.extend(wrong_references());
    all.extend([Damage::FirstStep, Damage::InterfaceOutput, Damage::StepOutside]);
    all.extend([Damage::Priority, Damage::LocalPriority, Damage::Destination]);
    all.extend([Damage::DelayVariable(role::OUTPUT), Damage::DelayVariable(role::INTERNAL)]);
    all.extend([Damage::Ninth(role::INPUT), Damage::Ninth(role::OUTPUT), Damage::Order]);
    all.extend([Damage::Ninth(role::INPUT), Damage::Ninth(role::OUTPUT)]);
    all.extend([Damage::Repeated(kind::ASSOCIATION), Damage::Repeated(kind::DATA_CONNECTION)]);
    all.extend([Damage::Repeated(kind::EVENT_CONNECTION); 2]);
    all.extend([Damage::LocalPriority, Damage::UnknownKind]);
    all.extend(wrong_shapes());
    all.push(Damage::Anyhow);
    all
}

fn wrong_references() -> impl Iterator<Item = Damage> {
    /// Kinds and the places of their references.
    const PLACES: [(u8, &[usize]); 11] = [
        (kind::ELEMENT, &[1]),
        (kind::EVENT_INPUT, &[0]),
        (kind::EVENT_OUTPUT, &[0]),
        (kind::VARIABLE, &[0]),
        (kind::ASSOCIATION, &[0, 1]),
        (kind::STATE, &[0]),
        (kind::TRANSITION, &[0, 1, 2, 3, 4]),
        (kind::ACTION, &[0, 3]),
        (kind::STEP, &[0, 1, 2]),
        (kind::EVENT_CONNECTION, &[0, 1]),
        (kind::DATA_CONNECTION, &[0, 1]),
    ];
    /// Places where a variable of the role is wrong, at least under a flag.
    const ROLES: [(u8, usize, u8); 8] = [
        (kind::ASSOCIATION, 1, role::INPUT),
        (kind::ASSOCIATION, 1, role::OUTPUT),
        (kind::ASSOCIATION, 1, role::INTERNAL),
        (kind::STEP, 0, role::INPUT),
        (kind::DATA_CONNECTION, 0, role::INPUT),
        (kind::DATA_CONNECTION, 0, role::INTERNAL),
        (kind::DATA_CONNECTION, 1, role::OUTPUT),
        (kind::DATA_CONNECTION, 1, role::INTERNAL),
    ];
    let pairs = PLACES.iter().flat_map(|(kind, places)| places.iter().map(|&place| (*kind, place)));
    let any = pairs.flat_map(|(kind, place)| {
        // Events and variables may be of any element, connections join any two.
        let free = matches!(
            kind,
            kind::EVENT_INPUT | kind::EVENT_OUTPUT | kind::VARIABLE | kind::EVENT_CONNECTION
        );
        let other = if free { Wrong::Missing } else { Wrong::OtherOwner };
        [Wrong::Missing, other].map(|wrong| Damage::Reference(kind, place, wrong))
    });
    let roles = ROLES.map(|(kind, place, role)| Damage::Reference(kind, place, Wrong::Role(role)));
    any.chain(roles)
}

/// Every way to leave the shape of an element by one frame.
fn wrong_shapes() -> Vec<Damage> {
    let mut shapes = Vec::new();
    for (flag, kept) in [(element_flag::SOURCE, role::OUTPUT), (element_flag::SINK, role::INPUT)] {
        for role in [role::INPUT, role::OUTPUT, role::INTERNAL] {
            if role != kept {
                shapes.push(Damage::Added(flag, kind::VARIABLE, role));
            }
        }
    }
    shapes.push(Damage::Added(element_flag::SOURCE, kind::EVENT_INPUT, 0xEE));
    shapes.push(Damage::Added(element_flag::SINK, kind::EVENT_OUTPUT, 0));
    for flag in [element_flag::INTERFACE, element_flag::DELAY] {
        shapes.push(Damage::Added(flag, kind::EVENT_INPUT, 0xEE));
        shapes.push(Damage::Added(flag, kind::EVENT_OUTPUT, 0));
        for role in [role::INPUT, role::OUTPUT, role::INTERNAL] {
            shapes.push(Damage::Added(flag, kind::VARIABLE, role));
        }
        for kind in [kind::EVENT_INPUT, kind::EVENT_OUTPUT, kind::VARIABLE] {
            shapes.push(Damage::Lost(flag, kind));
        }
    }
    shapes
}

impl Damage {
    /// Damages a table; `None` if it holds nothing to be damaged so.
    pub fn apply(self, rng: &mut Rng, table: &mut Vec<Frame>) -> Option<()> {
        match self {
            Damage::Flag(kind) => break_flag(rng, table, kind)?,
            Damage::Unused(kind) => break_unused(rng, table, kind)?,
            Damage::UnknownKind => {
                let position = rng.below(table.len());
                table[position].kind = rng.pick(&[0x00, 0x0C, 0x7F, 0x84, 0xFF]);
            }
            Damage::StepCount => {
                let position = pick(rng, table, kind::ACTION)?;
                table[position].fields[2] = rng.pick(&[65, 65, 66, 256, NONE]);
            }
            Damage::Order => break_order(rng, table)?,
            Damage::Reference(kind, place, wrong) => {
                break_reference(rng, table, kind, place, wrong)?;
            }
            Damage::FirstStep => break_steps(rng, table)?,
            Damage::InterfaceOutput => associate_interface_output(rng, table)?,
            Damage::StepOutside => add_step_outside(rng, table)?,
            Damage::Priority => repeat_priority(rng, table)?,
            Damage::LocalPriority => repeat_local_priority(rng, table)?,
            Damage::Added(flag, kind, more) => {
                let element = pick_element(rng, table, flag)?;
                append(table, Frame::new(kind, more, &[field(element)]));
            }
            Damage::Lost(flag, kind) => lose(rng, table, flag, kind)?,
            Damage::DelayVariable(role) => {
                let owned = owned_by(table, element_flag::DELAY, kind::VARIABLE);
                table[rng.pick_any(&owned)?].flag = role;
            }
            Damage::Repeated(kind) => repeat(rng, table, kind)?,
            Damage::Ninth(flag) => add_associations(rng, table, flag)?,
            Damage::Destination => connect_again(rng, table)?,
            Damage::Anyhow => damage_anyhow(rng, table),
        }
        Some(())
    }
}

// ---------------------------------------------------------------- helpers

/// The positions of the frames of one kind, in the order of their ids.
fn positions(table: &[Frame], kind: u8) -> Vec<usize> {
    (0..table.len()).filter(|&p| table[p].kind == kind).collect()
}

/// The position of one of the frames of a kind.
fn pick(rng: &mut Rng, table: &[Frame], kind: u8) -> Option<usize> {
    rng.pick_any(&positions(table, kind))
}

/// One of the elements with a flag; the elements are the first frames.
fn pick_element(rng: &mut Rng, table: &[Frame], flag: u8) -> Option<usize> {
    let mut elements = positions(table, kind::ELEMENT);
    elements.retain(|&p| table[p].flag == flag);
    rng.pick_any(&elements)
}

/// The frames of a kind that name an element with this flag as theirs.
fn owned_by(table: &[Frame], flag: u8, kind: u8) -> Vec<usize> {
    let mut owned = positions(table, kind);
    owned.retain(|&p| table[usize::from(table[p].a())].flag == flag);
    owned
}

/// Puts a frame after the last one of its kind, so that no id moves.
fn append(table: &mut Vec<Frame>, frame: Frame) {
    let place = table.iter().rposition(|f| f.kind <= frame.kind).map_or(0, |p| p + 1);
    table.insert(place, frame);
}

// ---------------------------------------------------------------- number 2

fn break_flag(rng: &mut Rng, table: &mut [Frame], kind: u8) -> Option<()> {
    let (greatest, _) = limits(kind).expect("a known kind");
    let next = greatest.saturating_add(1);
    table[pick(rng, table, kind)?].flag = rng.pick(&[next, next, next, 0x80, 0xFF]);
    Some(())
}

fn break_unused(rng: &mut Rng, table: &mut [Frame], kind: u8) -> Option<()> {
    let mut open = positions(table, kind);
    open.retain(|&p| used_fields(&table[p]) < 5);
    let frame = &mut table[rng.pick_any(&open)?];
    // The first unused field is often used under another flag.
    let first = used_fields(frame);
    let place = if rng.chance(60) { first } else { rng.between(first, 4) };
    frame.fields[place] = rng.pick(&[1, 0x100, NONE]);
    Some(())
}

fn break_order(rng: &mut Rng, table: &mut [Frame]) -> Option<()> {
    let rising: Vec<usize> =
        (1..table.len()).filter(|&p| table[p - 1].kind < table[p].kind).collect();
    let position = rng.pick_any(&rising)?;
    table.swap(position - 1, position);
    Some(())
}

// ---------------------------------------------------------------- number 3

fn break_reference(
    rng: &mut Rng,
    table: &mut [Frame],
    kind: u8,
    place: usize,
    wrong: Wrong,
) -> Option<()> {
    let position = rng.pick_any(&with_reference(table, kind, place))?;
    let (_, named) = references(&table[position]).into_iter().find(|r| r.0 == place)?;
    let named = positions(table, named);
    let one_past = field(named.len());
    table[position].fields[place] = if wrong == Wrong::Missing {
        rng.pick(&[one_past, one_past, 0x1000, NONE - 1, NONE])
    } else {
        let now = table[*named.get(usize::from(table[position].fields[place]))?];
        let is_wrong = |&id: &usize| wrong.holds(&now, &table[named[id]]);
        let others: Vec<usize> = (0..named.len()).filter(is_wrong).collect();
        field(rng.pick_any(&others)?)
    };
    Some(())
}

/// The frames of a kind that have a reference at a place and on which damage
/// to it is found.
fn with_reference(table: &[Frame], kind: u8, place: usize) -> Vec<usize> {
    let all = positions(table, kind);
    let with = |&(id, p): &(usize, usize)| {
        references(&table[p]).iter().any(|r| r.0 == place) && !shows_on_element(table, id, p)
    };
    all.into_iter().enumerate().filter(with).map(|(_, p)| p).collect()
}

/// Whether an element would be refused if this frame left it: for its initial
/// state or, unless it is basic, for its shape.
fn shows_on_element(table: &[Frame], id: usize, position: usize) -> bool {
    let frame = table[position];
    match frame.kind {
        kind::STATE => is_initial(table, id),
        kind::EVENT_INPUT | kind::EVENT_OUTPUT | kind::VARIABLE => {
            table[usize::from(frame.a())].flag != element_flag::BASIC
        }
        _ => false,
    }
}

impl Wrong {
    /// Whether a frame that names `now` would be wrong in this way if it named
    /// `other`.
    fn holds(self, now: &Frame, other: &Frame) -> bool {
        let same_owner = other.a() == now.a();
        match self {
            Wrong::Missing => false,
            Wrong::OtherOwner => match now.kind {
                kind::ELEMENT => other.flag != now.flag,
                kind::VARIABLE => !same_owner && other.flag == now.flag,
                _ => !same_owner,
            },
            Wrong::Role(role) => same_owner && other.flag == role && now.flag != role,
        }
    }
}

fn is_initial(table: &[Frame], state: usize) -> bool {
    let names = |frame: &Frame| {
        frame.kind == kind::ELEMENT
            && frame.flag == element_flag::BASIC
            && usize::from(frame.b()) == state
    };
    table.iter().any(names)
}

/// Moves the stretch of an action, to past the last step or to anywhere.
fn break_steps(rng: &mut Rng, table: &mut [Frame]) -> Option<()> {
    let steps = positions(table, kind::STEP).len();
    let mut actions = positions(table, kind::ACTION);
    actions.retain(|&p| table[p].c() > 0);
    let action = &mut table[rng.pick_any(&actions)?];
    let count = usize::from(action.c());
    let just_past = field(steps + 1 - count.min(steps));
    let anywhere = field(rng.below(steps + 1));
    action.fields[1] = rng.pick(&[just_past, anywhere, NONE]);
    Some(())
}

fn associate_interface_output(rng: &mut Rng, table: &mut Vec<Frame>) -> Option<()> {
    let variables = positions(table, kind::VARIABLE);
    let events = positions(table, kind::EVENT_OUTPUT);
    let mut pairs = Vec::new();
    for (event, &e) in events.iter().enumerate() {
        for (variable, &v) in variables.iter().enumerate() {
            let element = table[e].a();
            let is_interface = table[usize::from(element)].flag == element_flag::INTERFACE;
            if is_interface && table[v].a() == element && table[v].flag == role::OUTPUT {
                pairs.push([field(event), field(variable)]);
            }
        }
    }
    let pair = rng.pick_any(&pairs)?;
    append(table, Frame::new(kind::ASSOCIATION, role::OUTPUT, &pair));
    Some(())
}

/// A step that no action has, with all variables of one element.
fn add_step_outside(rng: &mut Rng, table: &mut Vec<Frame>) -> Option<()> {
    let variables = positions(table, kind::VARIABLE);
    let is_other = |&id: &usize| {
        let variable = table[variables[id]];
        variable.flag == role::OUTPUT
            && table[usize::from(variable.a())].flag != element_flag::BASIC
    };
    let others: Vec<usize> = (0..variables.len()).filter(is_other).collect();
    let variable = field(rng.pick_any(&others)?);
    let copy = Frame::new(kind::STEP, operation::COPY, &[variable, variable]);
    let age = Frame::new(kind::STEP, operation::AGE, &[variable]);
    append(table, rng.pick(&[copy, age]));
    Some(())
}

// ---------------------------------------------------------------- number 4

fn repeat_priority(rng: &mut Rng, table: &mut [Frame]) -> Option<()> {
    let mut elements = positions(table, kind::ELEMENT);
    rng.shuffle(&mut elements);
    let (one, other) = (*elements.first()?, *elements.get(1)?);
    table[one].fields[0] = table[other].fields[0];
    Some(())
}

fn repeat_local_priority(rng: &mut Rng, table: &mut [Frame]) -> Option<()> {
    let one = pick(rng, table, kind::EVENT_INPUT)?;
    let mut siblings = positions(table, kind::EVENT_INPUT);
    siblings.retain(|&p| p != one && table[p].a() == table[one].a());
    table[one].flag = table[rng.pick_any(&siblings)?].flag;
    Some(())
}

/// Gives something of an element to a basic element.
fn lose(rng: &mut Rng, table: &mut [Frame], flag: u8, kind: u8) -> Option<()> {
    let basic = pick_element(rng, table, element_flag::BASIC)?;
    let position = rng.pick_any(&owned_by(table, flag, kind))?;
    table[position].fields[0] = field(basic);
    Some(())
}

/// Repeats a frame of a kind, at the end of its kind or beside itself.
fn repeat(rng: &mut Rng, table: &mut Vec<Frame>, kind: u8) -> Option<()> {
    let position = pick(rng, table, kind)?;
    let frame = table[position];
    if rng.chance(50) {
        append(table, frame);
    } else {
        table.insert(position, frame);
    }
    Some(())
}

/// Gives an event of a basic element more variables, with an association each,
/// until it has eight or, mostly, nine.
fn add_associations(rng: &mut Rng, table: &mut Vec<Frame>, flag: u8) -> Option<()> {
    let event_kind = if flag == role::INPUT { kind::EVENT_INPUT } else { kind::EVENT_OUTPUT };
    let basic = owned_by(table, element_flag::BASIC, event_kind);
    let first = positions(table, event_kind)[0];
    let event = rng.pick_any(&basic)?;
    let element = table[event].a();
    let id = field(event - first);
    let mut associated = positions(table, kind::ASSOCIATION);
    associated.retain(|&p| table[p].flag == flag && table[p].a() == id);
    for _ in associated.len()..rng.pick(&[8, 9, 9, 9]) {
        let variable = field(positions(table, kind::VARIABLE).len());
        append(table, Frame::new(kind::VARIABLE, flag, &[element]));
        append(table, Frame::new(kind::ASSOCIATION, flag, &[id, variable]));
    }
    Some(())
}

/// Connects a destination from any output variable once more.
fn connect_again(rng: &mut Rng, table: &mut Vec<Frame>) -> Option<()> {
    let variables = positions(table, kind::VARIABLE);
    let is_output = |&id: &usize| table[variables[id]].flag == role::OUTPUT;
    let outputs: Vec<usize> = (0..variables.len()).filter(is_output).collect();
    let connected = pick(rng, table, kind::DATA_CONNECTION)?;
    let pair = [field(rng.pick_any(&outputs)?), table[connected].b()];
    append(table, Frame::new(kind::DATA_CONNECTION, 0, &pair));
    Some(())
}

// ---------------------------------------------------------------- any damage

fn damage_anyhow(rng: &mut Rng, table: &mut Vec<Frame>) {
    let position = rng.below(table.len());
    let other = rng.below(table.len());
    match rng.below(9) {
        0..=3 => damage_frame(rng, table, position),
        4 => table.swap(position, other),
        5 => table.insert(other, table[position]),
        6 => {
            let frame = table.remove(position);
            table.insert(rng.below(table.len() + 1), frame);
        }
        7 if table.len() > 1 => drop(table.remove(position)),
        _ if rng.chance(25) => table.truncate(position + 1),
        _ if rng.chance(25) => table.reverse(),
        _ => table.push(table[position]),
    }
}

/// Changes any part of a frame to any number.
fn damage_frame(rng: &mut Rng, table: &mut [Frame], position: usize) {
    let (small, any) = (field(rng.below(16)), rng.bits() as u16);
    let number = rng.pick(&[small, small, any, NONE]);
    let place = rng.below(5);
    let same_kind = positions(table, table[position].kind);
    let other = table[rng.pick(&same_kind)];
    let frame = &mut table[position];
    match rng.below(5) {
        0 => frame.flag = number as u8,
        1 => frame.kind = rng.between(0, usize::from(kind::LAST) + 1) as u8,
        2 => frame.fields[place] = other.fields[place],
        3 => frame.fields[place] ^= 1 << rng.below(16),
        _ => frame.fields[place] = number,
    }
}
