//! Elements that can be changed and encoded again, with the lengths around them put right: most faults made in a tree pass
//! the first pass and reach the schema.

use super::Random;
use crate::reference::der::Element;
use crate::reference::table::{NUMBERS, VERSIONS};
use crate::reference::write;

#[derive(Clone, Copy, Debug)]
pub enum LengthForm {
    Shortest,
    /// 81 and one octet.
    One,
    /// 82 and two octets.
    Two,
    /// The first octet alone, such as 80 or 83.
    Bare(u8),
    /// Shortest, of a length that is off by as much.
    Off(isize),
}

#[derive(Clone, Debug)]
pub enum Body {
    Octets(Vec<u8>),
    Nodes(Vec<Node>),
}

#[derive(Clone, Debug)]
pub struct Node {
    pub identifier: Vec<u8>,
    pub length: LengthForm,
    pub body: Body,
}

impl Node {
    pub fn of(element: &Element, bytes: &[u8]) -> Node {
        let holds_elements = element.first & 32 != 0;
        let body = match holds_elements {
            true => Body::Nodes(element.inner.iter().map(|inner| Node::of(inner, bytes)).collect()),
            false => Body::Octets(element.octets(bytes).to_vec()),
        };
        let identifier_octets = match element.number {
            0..=30 => 1,
            31..=127 => 2,
            _ => 3,
        };
        let identifier = bytes[element.start..element.start + identifier_octets].to_vec();
        Node { identifier, length: LengthForm::Shortest, body }
    }

    pub fn leaf(identifier: u8, octets: &[u8]) -> Node {
        Node { identifier: vec![identifier], length: LengthForm::Shortest, body: Body::Octets(octets.to_vec()) }
    }

    pub fn holder(identifier: &[u8], nodes: Vec<Node>) -> Node {
        Node { identifier: identifier.to_vec(), length: LengthForm::Shortest, body: Body::Nodes(nodes) }
    }

    pub fn encode(&self) -> Vec<u8> {
        let content = match &self.body {
            Body::Octets(octets) => octets.clone(),
            Body::Nodes(nodes) => nodes.iter().flat_map(Node::encode).collect(),
        };
        let length = content.len();
        let length_octets = match self.length {
            LengthForm::Shortest => write::length(length),
            LengthForm::One => vec![0x81, length as u8],
            LengthForm::Two => vec![0x82, (length >> 8) as u8, length as u8],
            LengthForm::Bare(octet) => vec![octet],
            LengthForm::Off(by) => write::length(length.saturating_add_signed(by)),
        };
        [self.identifier.clone(), length_octets, content].concat()
    }

    /// How many nodes there are, this one too.
    pub fn count(&self) -> usize {
        match &self.body {
            Body::Octets(_) => 1,
            Body::Nodes(nodes) => 1 + nodes.iter().map(Node::count).sum::<usize>(),
        }
    }

    /// The node at `index` in byte order, this one being at 0.
    fn at(&mut self, index: usize) -> &mut Node {
        if index == 0 {
            return self;
        }
        let Body::Nodes(nodes) = &mut self.body else { panic!("index past the tree") };
        let mut index = index - 1;
        for node in nodes {
            let count = node.count();
            if index < count {
                return node.at(index);
            }
            index -= count;
        }
        panic!("index past the tree")
    }

    fn any(&mut self, random: &mut Random) -> &mut Node {
        let index = random.below(self.count());
        self.at(index)
    }

    fn nodes(&mut self) -> Option<&mut Vec<Node>> {
        match &mut self.body {
            Body::Nodes(nodes) => Some(nodes),
            Body::Octets(_) => None,
        }
    }

    /// Any node that holds nodes, a few of them at least where one is found soon.
    fn any_holder(&mut self, random: &mut Random) -> &mut Vec<Node> {
        let count = self.count();
        let mut index = 0;
        for _ in 0..16 {
            let tried = random.below(count);
            if matches!(&self.at(tried).body, Body::Nodes(nodes) if !nodes.is_empty()) {
                index = tried;
                break;
            }
        }
        if self.at(index).nodes().is_none() {
            self.at(index).body = Body::Nodes(Vec::new());
        }
        self.at(index).nodes().expect("it holds nodes")
    }

    /// The software or the hardware list, where they are still in their places.
    fn any_list(&mut self, random: &mut Random) -> Option<&mut Vec<Node>> {
        let place = 6 + random.below(2);
        self.nodes()?.get_mut(place)?.nodes()
    }

    /// Any of the elements with this first octet.
    fn any_with(&mut self, first: u8, random: &mut Random) -> Option<&mut Node> {
        let matching: Vec<usize> = (0..self.count()).filter(|&index| self.at(index).identifier[0] == first).collect();
        if matching.is_empty() {
            return None;
        }
        let index = random.pick(&matching);
        Some(self.at(index))
    }
}

/// One fault, or a change that is none.
pub fn change(tree: &mut Node, random: &mut Random) {
    match random.below(20) {
        0 | 1 => change_content(tree.any(random), random),
        2 => flip_content_bit(tree.any(random), random),
        3 => tree.any(random).identifier = identifier(random),
        4 => drop_one(tree.any_holder(random), random),
        5 => repeat_one(tree.any_holder(random), random),
        6 => swap_two(tree.any_holder(random), random),
        7 | 8 => insert_one(tree.any_holder(random), random),
        9 => wrap(tree.any(random), random),
        10 | 11 => renumber_field(tree, random),
        12 => change_version(tree, random),
        13 | 14 => change_members(tree, random),
        15 => tree.any(random).length = length_form(random),
        16 => unwrap_one(tree.any_holder(random), random),
        17 => add_field(tree, random),
        18 => change_known_leaf(tree, random),
        _ if random.once_in(3) => nest(tree, random),
        _ if random.once_in(2) => crowd(tree, random),
        _ => change_content(tree.any(random), random),
    }
}

/// Contents at the edges of what an INTEGER, ENUMERATED, BOOLEAN or NULL may hold.
fn content(random: &mut Random) -> Vec<u8> {
    match random.below(5) {
        0 => random.pick(&[vec![], vec![0], vec![1], vec![2], vec![3], vec![4], vec![0xff], vec![0x7f], vec![0x80]]),
        1 => random.pick(&[vec![0, 0], vec![0, 0x7f], vec![0, 0x80], vec![0xff, 0xff], vec![0, 0xff]]),
        2 => random.pick(&[
            vec![0, 0xff, 0xff, 0xff, 0xff],
            vec![1, 0, 0, 0, 0],
            vec![0, 0xff, 0xff, 0xff, 0xff, 0xff, 0xff, 0xff, 0xff],
            vec![1, 0, 0, 0, 0, 0, 0, 0, 0],
            vec![0, 1, 0, 0, 0, 0, 0, 0, 0, 0],
            vec![0, 0x80, 0, 0, 0, 0, 0, 0, 0, 0],
        ]),
        3 => write::integer(0x02, random.number(u64::MAX))[2..].to_vec(),
        _ => {
            let count = random.below(11);
            random.bytes(count)
        }
    }
}

fn change_content(node: &mut Node, random: &mut Random) {
    if let Body::Octets(octets) = &mut node.body {
        *octets = content(random);
    }
}

/// The content of a small element, such as a level, the lock or a state.
fn change_known_leaf(tree: &mut Node, random: &mut Random) {
    let first = random.pick(&[0x01, 0x02, 0x05, 0x0a]);
    if let Some(node) = tree.any_with(first, random) {
        change_content(node, random);
    }
}

fn flip_content_bit(node: &mut Node, random: &mut Random) {
    if let Body::Octets(octets) = &mut node.body {
        if !octets.is_empty() {
            let place = random.below(octets.len());
            octets[place] ^= 1 << random.below(8);
        }
    }
}

fn identifier(random: &mut Random) -> Vec<u8> {
    match random.below(4) {
        0 => vec![random.pick(&[0x01, 0x02, 0x04, 0x05, 0x0a, 0x30, 0x31])],
        1 => vec![random.pick(&[0x24, 0x22, 0x10, 0x11, 0x2a, 0x21, 0x00, 0xe1, 0x61, 0x81])],
        2 => write::context_tag(random.pick(&NUMBERS)),
        // Other classes and forms of a field's number, and forms that are not shortest.
        _ => random.pick(&[
            vec![0x9f, 0x83, 0x10],
            vec![0x7f, 0x83, 0x10],
            vec![0xbf, 0x80, 0x10],
            vec![0xbf, 0x1e],
            vec![0xbf, 0x1f],
            vec![0xbf, 0x7f],
            vec![0xbf, 0x81, 0x80],
            vec![0xbf, 0xff, 0x7f],
            vec![0x1f, 0x83, 0x10],
        ]),
    }
}

fn drop_one(nodes: &mut Vec<Node>, random: &mut Random) {
    if !nodes.is_empty() {
        nodes.remove(random.below(nodes.len()));
    }
}

fn repeat_one(nodes: &mut Vec<Node>, random: &mut Random) {
    if !nodes.is_empty() {
        let from = random.below(nodes.len());
        let to = if random.flip() { from } else { random.below(nodes.len() + 1) };
        nodes.insert(to, nodes[from].clone());
    }
}

fn swap_two(nodes: &mut [Node], random: &mut Random) {
    if nodes.len() >= 2 {
        let one = random.below(nodes.len());
        let other = if random.flip() { (one + 1) % nodes.len() } else { random.below(nodes.len()) };
        nodes.swap(one, other);
    }
}

fn small_node(random: &mut Random) -> Node {
    match random.below(6) {
        0 => Node::leaf(0x05, &[]),
        1 => Node::leaf(0x02, &content(random)),
        2 => Node::leaf(0x04, &content(random)),
        3 => Node::holder(&[0x30], vec![]),
        4 => Node::holder(&[0x31], vec![Node::leaf(0x02, &[1])]),
        _ => Node::leaf(random.pick(&[0x0a, 0x01, 0x00]), &[random.word() as u8 & 3]),
    }
}

fn insert_one(nodes: &mut Vec<Node>, random: &mut Random) {
    let place = random.below(nodes.len() + 1);
    nodes.insert(place, small_node(random));
}

fn wrap(node: &mut Node, random: &mut Random) {
    let around = if random.flip() { vec![0x30] } else { identifier(random) };
    let inner = node.clone();
    *node = Node::holder(&around, vec![inner]);
}

fn unwrap_one(nodes: &mut Vec<Node>, random: &mut Random) {
    if !nodes.is_empty() {
        let place = random.below(nodes.len());
        if let Body::Nodes(inner) = nodes[place].body.clone() {
            nodes.splice(place..=place, inner);
        }
    }
}

fn field_number(random: &mut Random) -> u64 {
    match random.below(4) {
        0 => random.word() & 16_383,
        1 => {
            let number = random.pick(&NUMBERS);
            random.beside(number)
        }
        _ => random.pick(&NUMBERS),
    }
}

fn renumber_field(tree: &mut Node, random: &mut Random) {
    let number = field_number(random);
    if let Some(list) = tree.any_list(random).filter(|list| !list.is_empty()) {
        let place = random.below(list.len());
        list[place].identifier = write::context_tag(number);
    }
}

/// A field in its place by number, with some content.
fn add_field(tree: &mut Node, random: &mut Random) {
    let number = field_number(random);
    let nodes = (0..random.pick(&[0, 1, 1, 1, 2])).map(|_| small_node(random)).collect();
    let field = Node::holder(&write::context_tag(number), nodes);
    if let Some(list) = tree.any_list(random) {
        let is_before = |other: &Node| number_of(&other.identifier) < number;
        let place = list.iter().take_while(|other| is_before(other)).count();
        list.insert(place, field);
    }
}

fn number_of(identifier: &[u8]) -> u64 {
    match identifier {
        [first] => u64::from(first & 31),
        [_, number] => u64::from(*number),
        [_, high, low, ..] => u64::from(high & 127) << 7 | u64::from(*low),
        [] => 0,
    }
}

fn change_version(tree: &mut Node, random: &mut Random) {
    let version = match random.below(4) {
        0 => random.pick(&[0, 5, 99, 101, 400, u64::from(u32::MAX), 1 << 32]),
        _ => random.pick(&VERSIONS),
    };
    if let Some(node) = tree.nodes().and_then(|nodes| nodes.first_mut()) {
        node.body = Body::Octets(write::integer(0x02, version)[2..].to_vec());
    }
}

fn change_members(tree: &mut Node, random: &mut Random) {
    let Some(set) = tree.any_with(0x31, random).and_then(Node::nodes) else { return };
    match random.below(4) {
        0 => swap_two(set, random),
        1 => repeat_one(set, random),
        2 => insert_one(set, random),
        _ => {
            let step = random.pick(&[1, 1, 20, 300]);
            let count = random.between(15, 18) as u64;
            let member = |place: u64| Node::leaf(0x02, &write::integer(0x02, place * step)[2..]);
            *set = (0..count).map(member).collect();
            if random.once_in(3) {
                insert_one(set, random);
            }
        }
    }
}

fn length_form(random: &mut Random) -> LengthForm {
    match random.below(5) {
        0 => LengthForm::One,
        1 => LengthForm::Two,
        2 => LengthForm::Bare(random.pick(&[0x80, 0x83, 0x84, 0xff])),
        _ => LengthForm::Off(random.pick(&[-2, -1, 1, 2, 100, 300])),
    }
}

/// Holders in one another, about as deep as is allowed.
fn nest(tree: &mut Node, random: &mut Random) {
    let mut node = if random.flip() { Node::holder(&[0x30], vec![]) } else { Node::leaf(0x05, &[]) };
    for _ in 0..random.between(4, 8) {
        node = Node::holder(&[random.pick(&[0x30, 0x31, 0xa1])], vec![node]);
    }
    let nodes = tree.any_holder(random);
    let place = random.below(nodes.len() + 1);
    nodes.insert(place, node);
}

/// About as many elements as are allowed, with something after them that would be refused otherwise.
fn crowd(tree: &mut Node, random: &mut Random) {
    let goal = random.between(510, 514);
    let missing = goal.saturating_sub(tree.count());
    let nodes = tree.any_holder(random);
    let place = random.below(nodes.len() + 1);
    let filler = small_node(random);
    let filler = if filler.count() == 1 { filler } else { Node::leaf(0x05, &[]) };
    nodes.splice(place..place, std::iter::repeat_n(filler, missing));
    if random.once_in(4) {
        change_content(tree.any(random), random);
    }
}
