//! Networks, read from texts of the SNDlib native format: undirected links, each with its greatest module.

use crate::numbers::{decimals_for, millionths, DECIMALS};
use std::collections::HashMap;

/// A link over which one goes both ways, and whose load counts both.
#[derive(Clone, Copy, Debug)]
pub struct Cell {
    pub tail: u16,
    pub head: u16,
    pub capacity: u64,
}

/// An amount that goes from one node to another.
#[derive(Clone, Copy, Debug)]
pub struct Commodity {
    pub from: u16,
    pub to: u16,
    pub amount: u64,
}

/// A network in its own units.
#[derive(Debug, Default)]
pub struct Network {
    pub nodes: usize,
    pub cells: Vec<Cell>,
    pub commodities: Vec<Commodity>,
}

impl Network {
    /// Reads a file.
    pub fn read(path: &str) -> Result<Network, String> {
        let text = std::fs::read_to_string(path).map_err(|error| format!("{path}: {error}"))?;
        Rows::read(&text)
            .and_then(Rows::in_units)
            .map_err(|error| format!("{path}: {error}"))
    }

    /// The least positive capacity.
    pub fn least_capacity(&self) -> u64 {
        self.cells
            .iter()
            .map(|cell| cell.capacity)
            .filter(|&capacity| capacity > 0)
            .min()
            .unwrap_or(1)
    }

    /// The nodes from which some commodity goes, ascending.
    pub fn sources(&self) -> Vec<u16> {
        let mut sources: Vec<u16> = self
            .commodities
            .iter()
            .map(|commodity| commodity.from)
            .collect();
        sources.sort_unstable();
        sources.dedup();
        sources
    }
}

/// What is claimed at once: some commodities of one source.
#[derive(Debug)]
pub struct Turn {
    pub source: u16,
    pub members: Vec<u32>,
}

/// All commodities by their sources, ascending, or each alone.
pub fn turns_of(net: &Network, by_source: bool) -> Vec<Turn> {
    let alone = |(k, commodity): (usize, &Commodity)| Turn {
        source: commodity.from,
        members: vec![k as u32],
    };
    if !by_source {
        return net.commodities.iter().enumerate().map(alone).collect();
    }
    let mut members = vec![Vec::new(); net.nodes];
    for (k, commodity) in net.commodities.iter().enumerate() {
        members[commodity.from as usize].push(k as u32);
    }
    let of = |source: u16| Turn {
        source,
        members: std::mem::take(&mut members[source as usize]),
    };
    net.sources().into_iter().map(of).collect()
}

/// Links and demands with their numbers in millionths.
#[derive(Default)]
struct Rows {
    nodes: HashMap<String, u16>,
    links: Vec<(u16, u16, u128)>,
    demands: Vec<(u16, u16, u128)>,
}

impl Rows {
    fn read(text: &str) -> Result<Rows, String> {
        let (first, rest) = text.split_once('\n').unwrap_or((text, ""));
        if !first.starts_with("?SNDlib native format; type: network;") {
            return Err("no network text".to_string());
        }
        let mut rows = Rows::default();
        let mut words = Words {
            words: tokens(rest),
            at: 0,
        };
        while let Some(section) = words.next() {
            words.expect("(")?;
            match section.as_str() {
                "NODES" => rows.read_nodes(&mut words)?,
                "LINKS" => rows.read_links(&mut words)?,
                "DEMANDS" => rows.read_demands(&mut words)?,
                _ => words.skip_group()?,
            }
        }
        Ok(rows)
    }

    fn read_nodes(&mut self, words: &mut Words) -> Result<(), String> {
        while let Some(id) = words.entry()? {
            self.nodes.insert(id, self.nodes.len() as u16);
            if words.peek() == Some("(") {
                words.next();
                words.skip_group()?;
            }
        }
        Ok(())
    }

    fn read_links(&mut self, words: &mut Words) -> Result<(), String> {
        while words.entry()?.is_some() {
            let (tail, head) = self.ends(words)?;
            let installed = words.number()?;
            for _ in 0..3 {
                words.word()?;
            }
            let greatest = words.greatest_module()?;
            self.links.push((tail, head, installed + greatest));
        }
        Ok(())
    }

    fn read_demands(&mut self, words: &mut Words) -> Result<(), String> {
        while words.entry()?.is_some() {
            let (from, to) = self.ends(words)?;
            let product = words.number()? * words.number()?;
            words.word()?;
            let million = 10u128.pow(DECIMALS);
            if product % million != 0 {
                return Err("an amount is too fine".to_string());
            }
            self.demands.push((from, to, product / million));
        }
        Ok(())
    }

    /// `( node node )`
    fn ends(&self, words: &mut Words) -> Result<(u16, u16), String> {
        let node = |name: String| {
            self.nodes
                .get(&name)
                .copied()
                .ok_or_else(|| format!("{name} is no node"))
        };
        words.expect("(")?;
        let ends = (node(words.word()?)?, node(words.word()?)?);
        words.expect(")")?;
        Ok(ends)
    }

    /// The network with as many decimals as its numbers need, without demands of nothing or from a node to itself.
    fn in_units(self) -> Result<Network, String> {
        let moves = |demand: &&(u16, u16, u128)| demand.0 != demand.1 && demand.2 > 0;
        let kept: Vec<_> = self.demands.iter().filter(moves).collect();
        let values = self
            .links
            .iter()
            .map(|link| link.2)
            .chain(kept.iter().map(|demand| demand.2));
        let unit = 10u128.pow(DECIMALS - decimals_for(values));
        if kept.is_empty() {
            return Err("there is no demand".to_string());
        }
        let cell = |&(tail, head, capacity): &(u16, u16, u128)| Cell {
            tail,
            head,
            capacity: (capacity / unit) as u64,
        };
        let commodity = |demand: &&(u16, u16, u128)| {
            let &&(from, to, amount) = demand;
            Commodity {
                from,
                to,
                amount: (amount / unit) as u64,
            }
        };
        Ok(Network {
            nodes: self.nodes.len(),
            cells: self.links.iter().map(cell).collect(),
            commodities: kept.iter().map(commodity).collect(),
        })
    }
}

/// The words and parentheses of a text, without comments.
fn tokens(text: &str) -> Vec<String> {
    let mut tokens = Vec::new();
    for line in text.lines() {
        let code = line.split('#').next().unwrap_or("");
        let spaced = code.replace('(', " ( ").replace(')', " ) ");
        tokens.extend(spaced.split_whitespace().map(str::to_string));
    }
    tokens
}

/// Words that are taken one after the other.
struct Words {
    words: Vec<String>,
    at: usize,
}

impl Words {
    fn peek(&self) -> Option<&str> {
        self.words.get(self.at).map(String::as_str)
    }

    fn next(&mut self) -> Option<String> {
        let word = self.words.get_mut(self.at).map(std::mem::take);
        self.at += 1;
        word
    }

    /// The next word, which has to be there.
    fn word(&mut self) -> Result<String, String> {
        self.next()
            .ok_or_else(|| "the text ends within an entry".to_string())
    }

    fn expect(&mut self, wanted: &str) -> Result<(), String> {
        let word = self.word()?;
        if word == wanted {
            Ok(())
        } else {
            Err(format!("{word} stands where {wanted} has to"))
        }
    }

    fn number(&mut self) -> Result<u128, String> {
        millionths(&self.word()?)
    }

    /// The id of the next entry of a section, or its end.
    fn entry(&mut self) -> Result<Option<String>, String> {
        let word = self.word()?;
        Ok(if word == ")" { None } else { Some(word) })
    }

    /// The words of a group up to and with its end.
    fn skip_group(&mut self) -> Result<(), String> {
        let mut depth = 1;
        while depth > 0 {
            match self.word()?.as_str() {
                "(" => depth += 1,
                ")" => depth -= 1,
                _ => {}
            }
        }
        Ok(())
    }

    /// `( capacity cost .. )`: the greatest capacity, or 0.
    fn greatest_module(&mut self) -> Result<u128, String> {
        let mut greatest = 0;
        self.expect("(")?;
        while let Some(capacity) = self.entry()? {
            greatest = greatest.max(millionths(&capacity)?);
            self.word()?;
        }
        Ok(greatest)
    }
}
