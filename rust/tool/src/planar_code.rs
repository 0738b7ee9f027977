//! planar_code, the field's interchange format for embedded planar graphs, as plantri and nauty's planarg write it.
//!
//! A header `>>planar_code<<`, `>>planar_code le<<` or `>>planar_code be<<`, then graph after graph: the number of
//! vertices, then for each vertex its neighbours (numbered from 1) in clockwise order and a 0. Numbers are bytes; a graph that
//! begins with a byte 0 has two-byte numbers after it, in the header's byte order. A vertex lists itself twice for each loop.
//!
//! Where the header says none, writers differ (planarg puts the high byte first), and each graph is read in the order in which
//! its numbers are a graph's. The larger count of vertices that a plan may have is tried first. If it is wrong it fails at
//! neighbour 255, which a connected graph of so many vertices lists and which is 65,280 in the wrong order; as the lists end
//! alike in both orders, no byte past the graph is needed for that. What is left to a guess are numbers that are a graph's in
//! both orders.

use crate::joining::is_mutual;
use jurnadel::MAX_TRAILS;
use std::cmp::Reverse;
use std::io::{BufRead, Bytes};
use std::iter::successors;

/// For each vertex its neighbours, counted from 0, in clockwise order.
pub type Graph = Vec<Vec<usize>>;

/// How two bytes make a number.
type ByteOrder = fn([u8; 2]) -> u16;
const BIG: ByteOrder = u16::from_be_bytes;
const LITTLE: ByteOrder = u16::from_le_bytes;

/// The headers, and what they say of two-byte numbers.
const HEADERS: [(&[u8], Option<ByteOrder>); 3] =
    [(b">>planar_code<<", None), (b">>planar_code le<<", Some(LITTLE)), (b">>planar_code be<<", Some(BIG))];

/// Planar_code that is read graph by graph, as its bytes arrive.
pub struct Graphs<R> {
    input: Bytes<R>,
    /// The bytes of this graph, and how many of them are taken: it may be read twice.
    bytes: Vec<u8>,
    taken: usize,
    order: Option<ByteOrder>,
}

impl<R: BufRead> Graphs<R> {
    /// Begins with the header or, without one, with the first graph.
    pub fn begin(input: R, header: bool) -> Result<Graphs<R>, String> {
        let mut graphs = Graphs { input: input.bytes(), bytes: Vec::new(), taken: 0, order: None };
        if header {
            graphs.order = graphs.header()?;
        }
        Ok(graphs)
    }

    /// What the header says of two-byte numbers.
    fn header(&mut self) -> Result<Option<ByteOrder>, String> {
        loop {
            if let Some((_, order)) = HEADERS.iter().find(|(text, _)| self.bytes == *text) {
                return Ok(*order);
            }
            let begun = HEADERS.iter().any(|(text, _)| text.starts_with(&self.bytes));
            if !begun || self.byte()?.is_none() {
                return Err(String::from("not planar_code: no header >>planar_code<<; see --no-header"));
            }
        }
    }

    /// The next graph, if any, or what is wrong with it; then no further one can be read.
    pub fn next(&mut self) -> Result<Option<Graph>, String> {
        self.bytes.drain(..self.taken);
        self.taken = 0;
        match (self.byte()?, self.order) {
            (None, _) => Ok(None),
            (Some(0), Some(order)) => self.graph(Some(order)).map(Some),
            (Some(0), None) => self.graph_in_some_order().map(Some),
            (Some(_), _) => self.graph(None).map(Some),
        }
    }

    /// A graph of two-byte numbers, in the byte order that the head comment says.
    fn graph_in_some_order(&mut self) -> Result<Graph, String> {
        let head = [self.needed()?, self.needed()?];
        let mut orders = [BIG, LITTLE];
        orders.sort_by_key(|order| (order(head) > MAX_TRAILS + 1, Reverse(order(head))));
        let mut find = |wanted: fn(&Graph) -> bool| {
            let fits = |&&order: &&ByteOrder| self.graph(Some(order)).is_ok_and(|graph| wanted(&graph));
            orders.iter().find(fits)
        };
        let order = find(is_mutual).or_else(|| find(|_| true)).unwrap_or(&orders[0]);
        self.graph(Some(*order))
    }

    /// Reads this graph from its beginning: numbers of one byte, or of two in this order.
    fn graph(&mut self, order: Option<ByteOrder>) -> Result<Graph, String> {
        self.taken = usize::from(order.is_some());
        let vertices = self.number(order)?;
        (0..vertices).map(|_| self.list(order, vertices)).collect()
    }

    fn list(&mut self, order: Option<ByteOrder>, vertices: usize) -> Result<Vec<usize>, String> {
        let mut list = Vec::new();
        loop {
            match self.number(order)? {
                0 => return Ok(list),
                neighbour if neighbour > vertices => return Err(format!("neighbour {neighbour} of {vertices} vertices")),
                neighbour => list.push(neighbour - 1),
            }
        }
    }

    fn number(&mut self, order: Option<ByteOrder>) -> Result<usize, String> {
        match order {
            Some(order) => Ok(usize::from(order([self.needed()?, self.needed()?]))),
            None => self.needed().map(usize::from),
        }
    }

    fn needed(&mut self) -> Result<u8, String> {
        self.byte()?.ok_or_else(|| String::from("the file ends within a graph"))
    }

    /// Takes a byte, if there is one.
    fn byte(&mut self) -> Result<Option<u8>, String> {
        if self.taken == self.bytes.len() {
            match self.input.next().transpose() {
                Ok(Some(byte)) => self.bytes.push(byte),
                Ok(None) => return Ok(None),
                Err(error) => return Err(error.to_string()),
            }
        }
        self.taken += 1;
        Ok(Some(self.bytes[self.taken - 1]))
    }
}

/// The lists of a plan with start 0, whose junction and entry are the first. The other junctions stand, and their lists begin,
/// in the order of their lowest darts.
pub fn graph_of(order: &[u16]) -> Graph {
    let mut clockwise = vec![0; order.len()];
    for (dart, &next) in order.iter().enumerate() {
        clockwise[usize::from(next)] = dart;
    }
    let mut vertex_of = vec![usize::MAX; order.len()];
    let mut vertices = Vec::new();
    for first in 0..order.len() {
        if vertex_of[first] == usize::MAX {
            let darts: Vec<usize> =
                successors(Some(first), |&dart| Some(clockwise[dart]).filter(|&next| next != first)).collect();
            darts.iter().for_each(|&dart| vertex_of[dart] = vertices.len());
            vertices.push(darts);
        }
    }
    vertices.iter().map(|darts| darts.iter().map(|dart| vertex_of[dart ^ 1]).collect()).collect()
}

/// The planar_code of graphs, of at most 65,535 vertices each. If some numbers have two bytes, the header says in which order.
pub fn code(graphs: &[Graph]) -> Vec<u8> {
    let is_wide = |graph: &Graph| graph.len() > 255;
    let (header, _) = if graphs.iter().any(is_wide) { HEADERS[2] } else { HEADERS[0] };
    let mut bytes = header.to_vec();
    for graph in graphs {
        let lists = graph.iter().flat_map(|list| list.iter().map(|neighbour| neighbour + 1).chain([0]));
        let numbers = [graph.len()].into_iter().chain(lists);
        match is_wide(graph) {
            true => bytes.extend([0].into_iter().chain(numbers.flat_map(|number| (number as u16).to_be_bytes()))),
            false => bytes.extend(numbers.map(|number| number as u8)),
        }
    }
    bytes
}

#[cfg(test)]
mod tests {
    use super::*;

    /// The graphs of a file, and how it ends.
    fn graphs(bytes: &[u8], header: bool) -> (Vec<Graph>, Result<(), String>) {
        let mut graphs = Vec::new();
        let mut read = || {
            let mut reader = Graphs::begin(bytes, header)?;
            while let Some(graph) = reader.next()? {
                graphs.push(graph);
            }
            Ok(())
        };
        let end = read();
        (graphs, end)
    }

    fn with_header(numbers: &[u8]) -> Vec<u8> {
        [b">>planar_code<<", numbers].concat()
    }

    #[test]
    fn files() {
        let triangle = vec![vec![1, 2], vec![2, 0], vec![0, 1]];
        let bytes = [3, 2, 3, 0, 3, 1, 0, 1, 2, 0];
        let one = (vec![triangle.clone()], Ok(()));
        assert_eq!(graphs(&with_header(&bytes), true), one);
        assert_eq!(graphs(&bytes, false), one);
        assert_eq!(graphs(&with_header(&[bytes, bytes].concat()), true).0, [&triangle[..], &triangle]);
        let wide: Vec<u8> = [0].into_iter().chain(bytes.iter().flat_map(|&byte| [0, byte])).collect();
        assert_eq!(graphs(&[&b">>planar_code be<<"[..], &wide].concat(), true), one);
        assert_eq!(graphs(&with_header(&wide), true), one);
        assert_eq!(graphs(&with_header(&[]), true), (vec![], Ok(())));
        for no_header in [&bytes[..], b"", b">>planar_co", b">>planar_code xe<<"] {
            assert_eq!(
                graphs(no_header, true).1,
                Err(String::from("not planar_code: no header >>planar_code<<; see --no-header"))
            );
        }
    }

    #[test]
    fn what_stands_before_damage_is_read() {
        let edge = [2, 2, 0, 1, 0];
        let after_edge = |bytes: &[u8]| {
            let (before, end) = graphs(&with_header(&[&edge, bytes].concat()), true);
            assert_eq!(before, [[[1], [0]]]);
            end.unwrap_err()
        };
        assert_eq!(after_edge(&edge[..4]), "the file ends within a graph");
        assert_eq!(after_edge(&[0, 1]), "the file ends within a graph");
        assert_eq!(after_edge(&[2, 3, 0, 1, 0]), "neighbour 3 of 2 vertices");
    }

    /// The path of these vertices, from one to the next.
    fn path(vertices: usize) -> Graph {
        (0..vertices).map(|v| [v.checked_sub(1), Some(v + 1)].into_iter().flatten().filter(|&u| u < vertices).collect()).collect()
    }

    #[test]
    fn either_byte_order_where_the_header_says_none() {
        let wide = |graph: &Graph, bytes: fn(u16) -> [u8; 2]| {
            let lists = graph.iter().flat_map(|list| list.iter().map(|neighbour| neighbour + 1).chain([0]));
            [0].into_iter().chain([graph.len()].into_iter().chain(lists).flat_map(|n| bytes(n as u16))).collect::<Vec<u8>>()
        };
        // Read as the other order has them, counts are smaller, equal, larger, or more than a plan can have.
        for vertices in [2, 255, 256, 257, 258, 300, 511, 512, 513, 514, 1024, 3855, 4096, 4097] {
            // A star whose middle is the last has few numbers in its first lists.
            let hub = vertices - 1;
            let star = (0..vertices).map(|v| if v == hub { (0..hub).collect() } else { vec![hub] }).collect();
            for graph in [path(vertices), star] {
                for bytes in [u16::to_be_bytes, u16::to_le_bytes] {
                    let code = wide(&graph, bytes).repeat(3);
                    assert_eq!(graphs(&with_header(&code), true), (vec![graph.clone(); 3], Ok(())), "{vertices}");
                }
            }
        }
        let (little, end) = (wide(&path(300), u16::to_le_bytes), Err(String::from("the file ends within a graph")));
        assert_eq!(graphs(&[b">>planar_code le<<", &little[..]].concat(), true).0, [path(300)]);
        assert!(graphs(&[b">>planar_code be<<", &little[..]].concat(), true).1.is_err());
        assert_eq!(graphs(&with_header(&little[..little.len() - 1]), true), (vec![], end));
    }

    #[test]
    fn code_is_read_back() {
        let several = [vec![vec![1, 1], vec![0, 0]], path(255), path(256), path(2)];
        assert_eq!(graphs(&code(&several), true), (several.to_vec(), Ok(())));
        assert!(code(&several).starts_with(b">>planar_code be<<") && code(&several[..2]).starts_with(b">>planar_code<<"));
        // Dart 0 leads from the middle of a star to its second junction.
        assert_eq!(graph_of(&[4, 1, 0, 3, 2, 5]), [vec![1, 2, 3], vec![0], vec![0], vec![0]]);
    }
}
