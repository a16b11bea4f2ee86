//! The associations and connections of a random network.

use super::delays::Lead;
use super::rng::Rng;
use super::skeleton::{field, Skeleton};
use super::{Flow, Wish};
use crate::table::{element_flag, kind, role, Frame};

pub struct Wiring {
    pub associations: Vec<Frame>,
    pub event_connections: Vec<Frame>,
    pub data_connections: Vec<Frame>,
}

/// What is associated with each event, by id.
pub struct Associated {
    pub inputs: Vec<Vec<usize>>,
    pub outputs: Vec<Vec<usize>>,
}

impl Wiring {
    pub fn draw(rng: &mut Rng, skeleton: &Skeleton, wish: &Wish) -> Wiring {
        let mut associated = Associated::draw(rng, skeleton);
        let lead = Lead::draw(rng, skeleton);
        lead.iter().for_each(|lead| lead.associate(&mut associated));
        let carried = carried(skeleton, &associated);
        let mut associations = frames(kind::ASSOCIATION, role::INPUT, &associated.inputs);
        associations.extend(frames(kind::ASSOCIATION, role::OUTPUT, &associated.outputs));
        let mut connections = draw_event_connections(rng, skeleton, wish.flow);
        lead.iter().for_each(|lead| lead.connect(&mut connections));
        let mut sources = draw_data_connections(rng, skeleton, &associated, &carried, &connections);
        lead.iter().for_each(|lead| lead.feed(&mut sources));
        let mut wiring = Wiring {
            associations,
            event_connections: frames(kind::EVENT_CONNECTION, 0, &connections),
            data_connections: data_frames(&sources),
        };
        rng.shuffle(&mut wiring.associations);
        rng.shuffle(&mut wiring.event_connections);
        rng.shuffle(&mut wiring.data_connections);
        wiring
    }

    pub fn frames(&self) -> usize {
        self.associations.len() + self.event_connections.len() + self.data_connections.len()
    }

    /// Leaves off what a table with room for so many more frames cannot hold;
    /// no other frame refers to an association or connection.
    pub fn fit(&mut self, room: usize) {
        let share = room / 3;
        if self.frames() > room {
            self.associations.truncate(share);
            self.event_connections.truncate(share);
            self.data_connections.truncate(share);
        }
    }
}

/// A frame for each pair of an id and a member of its list.
fn frames(kind: u8, flag: u8, lists: &[Vec<usize>]) -> Vec<Frame> {
    let one = |(id, list): (usize, &Vec<usize>)| {
        let pair = |&member: &usize| Frame::new(kind, flag, &[field(id), field(member)]);
        list.iter().map(pair).collect::<Vec<Frame>>()
    };
    lists.iter().enumerate().flat_map(one).collect()
}

fn data_frames(sources: &[Option<usize>]) -> Vec<Frame> {
    let one = |(input, output): (usize, &Option<usize>)| {
        let fields = [field((*output)?), field(input)];
        Some(Frame::new(kind::DATA_CONNECTION, 0, &fields))
    };
    sources.iter().enumerate().filter_map(one).collect()
}

impl Associated {
    /// At most eight variables for one event, none for an interface's output.
    fn draw(rng: &mut Rng, skeleton: &Skeleton) -> Associated {
        let mut list = |owner: usize, role: u8| {
            let percent = rng.pick(&[50, 80, 100, 100]);
            rng.some_of(&skeleton.variables_of(owner, role), percent, 8)
        };
        let inputs = skeleton.event_inputs.iter().map(|&owner| list(owner, role::INPUT)).collect();
        let outputs = skeleton.event_outputs.iter().map(|&owner| {
            if skeleton.elements[owner] == element_flag::INTERFACE {
                Vec::new()
            } else {
                list(owner, role::OUTPUT)
            }
        });
        Associated { inputs, outputs: outputs.collect() }
    }
}

/// The variables that each event output carries, an interface's too.
fn carried(skeleton: &Skeleton, associated: &Associated) -> Vec<Vec<usize>> {
    let mut carried = associated.outputs.clone();
    for element in skeleton.elements_of(element_flag::INTERFACE) {
        let inputs = skeleton.variables_of(element, role::INPUT);
        let outputs = skeleton.variables_of(element, role::OUTPUT);
        let events = skeleton.event_inputs_of(element);
        for (event, output) in events.into_iter().zip(skeleton.event_outputs_of(element)) {
            carried[output] = (0..inputs.len())
                .filter(|&k| associated.inputs[event].contains(&inputs[k]))
                .map(|k| outputs[k])
                .collect();
        }
    }
    carried
}

/// For each event output the event inputs it leads to, very often one of a
/// sink, so that records tell what happened.
fn draw_event_connections(rng: &mut Rng, skeleton: &Skeleton, flow: Flow) -> Vec<Vec<usize>> {
    let ranks = draw_ranks(rng, skeleton);
    let is_sink = |input: usize| skeleton.flag_of_input(input) == element_flag::SINK;
    let mut connections = Vec::new();
    for &owner in &skeleton.event_outputs {
        let mut inputs: Vec<usize> = (0..skeleton.event_inputs.len())
            .filter(|&input| may_lead(rng, skeleton, &ranks, flow, owner, input))
            .collect();
        rng.shuffle(&mut inputs);
        if let Some(place) = inputs.iter().position(|&input| is_sink(input)) {
            inputs.swap(0, if rng.chance(70) { place } else { 0 });
        }
        let least = if flow == Flow::Rings { 2 } else { 0 };
        inputs.truncate(rng.pick(&[0, 1, 1, 2, 2, 3, 3, 5]).max(least));
        rng.shuffle(&mut inputs);
        connections.push(inputs);
    }
    if flow == Flow::Rings {
        close_ring(skeleton, &mut connections);
    }
    connections
}

/// Lets a source start an event that goes round an interface for ever and
/// gives a sink something to record each time.
fn close_ring(skeleton: &Skeleton, connections: &mut [Vec<usize>]) {
    let first = |flag: u8| skeleton.elements_of(flag).first().copied();
    let (Some(source), Some(interface), Some(sink)) =
        (first(element_flag::SOURCE), first(element_flag::INTERFACE), first(element_flag::SINK))
    else {
        return;
    };
    let started = skeleton.event_outputs_of(source)[0];
    let output = skeleton.event_outputs_of(interface)[0];
    let input = skeleton.event_inputs_of(interface)[0];
    let recorded = skeleton.event_inputs_of(sink)[0];
    for (from, to) in [(started, input), (output, input), (output, recorded)] {
        if !connections[from].contains(&to) {
            connections[from].push(to);
        }
    }
}

/// Sources first, sinks last, all others between them.
fn draw_ranks(rng: &mut Rng, skeleton: &Skeleton) -> Vec<usize> {
    let rank = |&flag: &u8| match flag {
        element_flag::SOURCE => 0,
        element_flag::SINK => 1001,
        _ => rng.between(1, 1000),
    };
    skeleton.elements.iter().map(rank).collect()
}

/// Whether an element's output may lead to an event input: always one of a
/// higher rank, and back as the flow allows. A STOP comes less often than a
/// START, so that delays fall due.
fn may_lead(
    rng: &mut Rng,
    skeleton: &Skeleton,
    ranks: &[usize],
    flow: Flow,
    owner: usize,
    input: usize,
) -> bool {
    let to = skeleton.event_inputs[input];
    let flag = skeleton.elements[to];
    let back_percent = match (flow, flag) {
        (Flow::Forward, _) => 0,
        (Flow::Back, element_flag::INTERFACE) => 8,
        (Flow::Back | Flow::Rings, _) => 100,
    };
    let is_stop = flag == element_flag::DELAY && skeleton.event_inputs[..input].contains(&to);
    (ranks[to] > ranks[owner] || rng.chance(back_percent)) && (!is_stop || rng.chance(25))
}

/// For each variable the output variable it comes from. Most inputs come from
/// a variable that an event connected to one of their events carries.
fn draw_data_connections(
    rng: &mut Rng,
    skeleton: &Skeleton,
    associated: &Associated,
    carried: &[Vec<usize>],
    connections: &[Vec<usize>],
) -> Vec<Option<usize>> {
    let mut sources = vec![None; skeleton.variables.len()];
    let mut order: Vec<usize> = (0..connections.len()).collect();
    rng.shuffle(&mut order);
    if rng.chance(70) {
        // What basic elements compute goes first, so that sinks record it.
        order.sort_by_key(|&o| skeleton.elements[skeleton.event_outputs[o]] != element_flag::BASIC);
    }
    for output in order {
        for variable in connections[output].iter().flat_map(|&input| &associated.inputs[input]) {
            if sources[*variable].is_none() && rng.chance(85) {
                sources[*variable] = rng.pick_any(&carried[output]);
            }
        }
    }
    let outputs: Vec<usize> = (0..skeleton.variables.len())
        .filter(|&id| skeleton.variables[id].1 == role::OUTPUT)
        .collect();
    for (id, source) in sources.iter_mut().enumerate() {
        let (owner, role) = skeleton.variables[id];
        if role == role::INPUT && source.is_none() && rng.chance(50) {
            *source = rng.pick_any(&outputs);
        }
        // A DT that nothing feeds keeps its start value, a time soon reached.
        if skeleton.elements[owner] == element_flag::DELAY && rng.chance(60) {
            *source = None;
        }
    }
    sources
}
