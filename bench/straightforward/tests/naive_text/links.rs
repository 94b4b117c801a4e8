//! The listing of a whole text, without a tree: links by looking along the words, from brace to brace.

pub struct Row<'a>(pub Vec<&'a str>);

impl Row<'_> {
    /// The listing's bytes, if its routines and nodes are not too many.
    pub fn listing(&self) -> Vec<u8> {
        let nodes = self.nodes();
        let number = |node| nodes.iter().position(|&at| at == node).expect("a node stands there") as u8;
        let mut bytes = vec![b'O', b'R', b'D', 1, 0, self.routines() as u8, nodes.len() as u8];
        for &at in &nodes {
            let routine = self.0[..at].iter().filter(|&&word| word == "routine").count() as u8 - 1;
            let kind = ["}", "r", "w", "u", "f"].iter().position(|&word| word == self.0[at]).unwrap_or(0);
            let location: u16 = if (1..=3).contains(&kind) { self.0[at + 1].parse().expect("a number") } else { 0 };
            let mut links: Vec<u8> = self.leads_to(at).into_iter().flatten().map(number).collect();
            links.sort();
            links.resize(2, 255);
            bytes.extend([routine, kind as u8, (location % 256) as u8, (location / 256) as u8, links[0], links[1]]);
        }
        bytes
    }

    pub fn routines(&self) -> usize {
        self.0.iter().filter(|&&word| word == "routine").count()
    }

    /// The words at which nodes stand: an item's first word, and the last brace of an either, where its blocks meet.
    pub fn nodes(&self) -> Vec<usize> {
        (0..self.0.len()).filter(|&at| self.is_item(at) || self.is_meeting(at)).collect()
    }

    fn is_item(&self, at: usize) -> bool {
        ["r", "w", "u", "f", "loop", "either"].contains(&self.0[at])
    }

    fn is_meeting(&self, at: usize) -> bool {
        self.0[at] == "}" && self.0[self.opened(at) - 1] == "}"
    }

    /// The nodes to which the one at this word leads.
    fn leads_to(&self, at: usize) -> [Option<usize>; 2] {
        match self.0[at] {
            "f" | "}" => [self.next(at + 1), None],
            "loop" => [self.next(at + 2), self.next(self.closed(at + 1) + 1)],
            "either" => [self.next(at + 2), self.next(self.closed(at + 1) + 2)],
            _ => [self.next(at + 2), None],
        }
    }

    /// The node that comes next, at this word or where the block leads that it ends.
    fn next(&self, at: usize) -> Option<usize> {
        if self.is_item(at) || self.is_meeting(at) {
            return Some(at);
        }
        let before = self.opened(at) - 1;
        match self.0[before] {
            "routine" => None,
            "loop" => Some(before),
            _ => Some(self.closed(at + 1)),
        }
    }

    /// The brace that closes the one at this word.
    fn closed(&self, open: usize) -> usize {
        self.balance(open..self.0.len()).expect("a block has an end")
    }

    /// The brace that the one at this word closes.
    fn opened(&self, close: usize) -> usize {
        self.balance((0..=close).rev()).expect("a block has a start")
    }

    /// The first of these words at which there are as many of one brace as of the other.
    fn balance(&self, mut words: impl Iterator<Item = usize>) -> Option<usize> {
        let mut more = 0;
        words.find(|&at| {
            more += (self.0[at] == "{") as i32 - (self.0[at] == "}") as i32;
            more == 0
        })
    }
}
