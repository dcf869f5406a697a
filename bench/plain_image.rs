//! The opening of an image in plain Rust over std's maps, as it is first thought of: it builds the index, undoes all records down to
//! the base to see that they fit, and builds the index again. `bench/open` measures it beside the program.
//!
//! usage: plain_image FILE     (an area: the image's length in 8 bytes, and its text, of version 2)
//!        plain_image --snapshot HEIGHT     (a snapshot as its input, for a base of that height)
//!
//! It says `ready` with the number of names, and ends with its input. Of a snapshot it builds the index once; `bench/snapshot`
//! measures that.
use std::collections::{HashMap, HashSet};
use std::fs::File;
use std::io::{self, BufReader, Read};

type OutPoint = [u8; 36];
type Text = Box<[u8]>;

const REGTEST_DEPTH: u32 = 30;

#[allow(dead_code)]
enum Coin {
    Commitment { height: u32, hash: [u8; 20] },
    Named { height: u32, name: Text },
}

#[derive(PartialEq)]
struct Item {
    height: u32,
    registered: u32,
    at: OutPoint,
    value: Text,
}

struct Change {
    spent: OutPoint,
    coin: Coin,
    name: Text,
    before: Option<Item>,
}

struct Operation {
    made: OutPoint,
    opens: bool,
    change: Option<Box<Change>>,
}

#[allow(dead_code)]
struct Undo {
    block: [u8; 32],
    operations: Vec<Operation>,
    expired: Vec<(OutPoint, Coin)>,
}

struct Index {
    base: u32,
    coins: HashMap<OutPoint, Coin>,
    names: HashMap<Text, Vec<Item>>,
    queue: HashMap<u32, HashSet<OutPoint>>,
    undos: Vec<Undo>,
}

type Answer<T> = Result<T, &'static str>;

impl Coin {
    fn height(&self) -> u32 {
        match self {
            Coin::Commitment { height, .. } | Coin::Named { height, .. } => *height,
        }
    }

    fn is_name(&self) -> bool {
        matches!(self, Coin::Named { .. })
    }
}

fn is_expired(made: u32, height: u32) -> bool {
    made + REGTEST_DEPTH <= height
}

/// The order of outpoints.
fn order_of(at: &OutPoint) -> ([u8; 32], u32) {
    (at[..32].try_into().unwrap(), u32::from_le_bytes(at[32..].try_into().unwrap()))
}

/// Reads one field after the other.
struct Reader<R> {
    from: R,
}

impl<R: Read> Reader<R> {
    fn array<const N: usize>(&mut self) -> Answer<[u8; N]> {
        let mut bytes = [0; N];
        self.from.read_exact(&mut bytes).map_err(|_| "cut")?;
        Ok(bytes)
    }

    fn byte(&mut self) -> Answer<u8> {
        Ok(self.array::<1>()?[0])
    }

    fn number(&mut self) -> Answer<u32> {
        Ok(u32::from_le_bytes(self.array()?))
    }

    fn text(&mut self, length: usize) -> Answer<Text> {
        let mut bytes = vec![0; length].into_boxed_slice();
        self.from.read_exact(&mut bytes).map_err(|_| "cut")?;
        Ok(bytes)
    }

    /// As many values as the count in front of them says, which makes room for a block's operations at once, and no more.
    fn list<T>(&mut self, mut value: impl FnMut(&mut Self) -> Answer<T>) -> Answer<Vec<T>> {
        let count = self.number()?;
        let mut values = Vec::with_capacity(count.min(1 << 16) as usize);
        for _ in 0..count {
            values.push(value(self)?);
        }
        Ok(values)
    }

    fn name(&mut self) -> Answer<Text> {
        let length = self.byte()?;
        self.text(length.into())
    }

    fn item(&mut self) -> Answer<Item> {
        let (height, registered, at) = (self.number()?, self.number()?, self.array()?);
        Ok(Item { height, registered, at, value: self.value()? })
    }

    fn value(&mut self) -> Answer<Text> {
        let length = u16::from_le_bytes(self.array()?);
        if length > 1023 {
            return Err("a value is too long");
        }
        self.text(length.into())
    }

    fn coin(&mut self) -> Answer<Coin> {
        match self.byte()? {
            1 => Ok(Coin::Commitment { height: self.number()?, hash: self.array()? }),
            2 => Ok(Coin::Named { height: self.number()?, name: self.name()? }),
            _ => Err("a tag of a coin"),
        }
    }

    fn coins(&mut self, mut take: impl FnMut(OutPoint, Coin)) -> Answer<()> {
        let mut last: Option<([u8; 32], u32)> = None;
        for _ in 0..self.number()? {
            let at: OutPoint = self.array()?;
            let order = order_of(&at);
            if last.is_some_and(|before| before >= order) {
                return Err("coins out of order");
            }
            last = Some(order);
            take(at, self.coin()?);
        }
        Ok(())
    }

    fn operation(&mut self) -> Answer<Operation> {
        let tag = self.byte()?;
        if !(0x51..=0x53).contains(&tag) {
            return Err("a tag of an operation");
        }
        let made = self.array()?;
        if tag == 0x51 {
            return Ok(Operation { made, opens: false, change: None });
        }
        let (spent, coin, name) = (self.array()?, self.coin()?, self.name()?);
        let before = match self.byte()? {
            0 => None,
            1 => Some(self.item()?),
            _ => return Err("a tag of an item"),
        };
        Ok(Operation { made, opens: tag == 0x52, change: Some(Box::new(Change { spent, coin, name, before })) })
    }

    fn undo(&mut self) -> Answer<Undo> {
        let block = self.array()?;
        let operations = self.list(Self::operation)?;
        let mut expired = Vec::new();
        self.coins(|at, coin| expired.push((at, coin)))?;
        Ok(Undo { block, operations, expired })
    }

    fn index(&mut self) -> Answer<Index> {
        if self.array()? != *b"NMCI\x02\x01" {
            return Err("no image of version 2 and regtest");
        }
        let base = self.number()?;
        let _: [u8; 32] = self.array()?;
        let undos = self.list(Self::undo)?;
        let mut index = Index { undos, ..Index::new(base) };
        self.coins(|at, coin| index.put(at, coin))?;
        let mut last: Option<Text> = None;
        for _ in 0..self.number()? {
            let name = self.name()?;
            if last.as_ref().is_some_and(|before| *before >= name) {
                return Err("names out of order");
            }
            let items = self.list(Self::item)?;
            if items.is_empty() {
                return Err("a name without a value");
            }
            last = Some(name.clone());
            index.names.insert(name, items);
        }
        Ok(index)
    }

    /// The index of a snapshot, on a base of this height.
    fn start(&mut self, base: u32) -> Answer<Index> {
        if self.array()? != *b"NMCS\x01" {
            return Err("no snapshot");
        }
        let mut index = Index::new(base);
        let mut last: Option<([u8; 32], u32)> = None;
        for _ in 0..self.number()? {
            let at: OutPoint = self.array()?;
            let (tag, height) = (self.byte()?, self.number()?);
            let coin = match tag {
                0x51 => Coin::Commitment { height, hash: self.array()? },
                0x53 => {
                    let name = self.name()?;
                    let item = Item { height, registered: height, at, value: self.value()? };
                    if is_expired(height, base + 1) || index.names.insert(name.clone(), vec![item]).is_some() {
                        return Err("a name is expired, or there twice");
                    }
                    Coin::Named { height, name }
                }
                _ => return Err("a tag of a make"),
            };
            let order = order_of(&at);
            if height > base || last.is_some_and(|before| before >= order) {
                return Err("a make out of order, or above the base");
            }
            last = Some(order);
            index.put(at, coin);
        }
        match self.from.read(&mut [0]) {
            Ok(0) => Ok(index),
            _ => Err("more than its makes"),
        }
    }
}

impl Index {
    fn new(base: u32) -> Index {
        Index { base, coins: HashMap::new(), names: HashMap::new(), queue: HashMap::new(), undos: Vec::new() }
    }

    fn tip(&self) -> u32 {
        self.base + self.undos.len() as u32
    }

    fn put(&mut self, at: OutPoint, coin: Coin) {
        if coin.is_name() {
            self.queue.entry(coin.height()).or_default().insert(at);
        }
        self.coins.insert(at, coin);
    }

    fn take(&mut self, at: &OutPoint) {
        if let Some(Coin::Named { height, .. }) = self.coins.remove(at) {
            if let Some(row) = self.queue.get_mut(&height) {
                row.remove(at);
            }
        }
    }

    /// Heights, and the coins of names, at this tip.
    fn is_state(&self) -> bool {
        let tip = self.tip();
        let coins = self.coins.iter().all(|(at, coin)| match coin {
            Coin::Commitment { height, .. } => *height <= tip,
            Coin::Named { height, name } => {
                let last = self.names.get(name).and_then(|items| items.last());
                !is_expired(*height, tip + 1) && last.is_some_and(|item| item.height == *height && item.at == *at)
            }
        });
        coins && self.names.iter().all(|(name, items)| {
            let rises = items.windows(2).all(|pair| pair[0].height <= pair[1].height);
            let last = &items[items.len() - 1];
            let stands = match self.coins.get(&last.at) {
                Some(Coin::Named { name: bears, .. }) => bears == name,
                _ => false,
            };
            rises && last.height <= tip && (stands || is_expired(last.height, tip + 1))
        })
    }

    fn is_bottom(&self) -> bool {
        self.coins.values().all(|coin| coin.height() <= self.base)
            && self.names.values().flatten().all(|item| item.height <= self.base && item.registered == item.height)
    }

    /// Takes the newest record back; `false` where it doesn't fit.
    fn undo(&mut self) -> bool {
        let height = self.tip();
        let Some(undo) = self.undos.pop() else { return false };
        for (at, coin) in undo.expired {
            let just = is_expired(coin.height(), height + 1) && !is_expired(coin.height(), height);
            if !just || self.coins.contains_key(&at) {
                return false;
            }
            self.put(at, coin);
        }
        undo.operations.into_iter().rev().all(|operation| self.takes_back(operation, height))
    }

    fn takes_back(&mut self, operation: Operation, height: u32) -> bool {
        let named = operation.change.is_some();
        if !self.coins.get(&operation.made).is_some_and(|coin| coin.height() == height && coin.is_name() == named) {
            return false;
        }
        self.take(&operation.made);
        let Some(change) = operation.change else { return true };
        let Change { spent, coin, name, before } = *change;
        let Some(items) = self.names.get_mut(&name) else { return false };
        let Some(last) = items.pop() else { return false };
        let registered = if operation.opens { Some(height) } else { before.as_ref().map(|item| item.registered) };
        let fits = last.height == height && last.at == operation.made && items.last() == before.as_ref() && registered == Some(last.registered);
        if items.is_empty() {
            self.names.remove(&name);
        }
        if !fits || self.coins.contains_key(&spent) {
            return false;
        }
        self.put(spent, coin);
        true
    }
}

fn read(path: &str) -> Answer<Index> {
    let mut from = BufReader::new(File::open(path).map_err(|_| "no such file")?);
    let mut length = [0; 8];
    from.read_exact(&mut length).map_err(|_| "cut")?;
    Reader { from: from.take(u64::from_le_bytes(length)) }.index()
}

fn open(path: &str) -> Answer<Index> {
    let mut below = read(path)?;
    if !below.is_state() {
        return Err("no state");
    }
    while !below.undos.is_empty() {
        if !below.undo() {
            return Err("a record doesn't fit");
        }
    }
    if !below.is_bottom() {
        return Err("no base");
    }
    drop(below);
    read(path)
}

fn start(height: &str) -> Answer<Index> {
    let base = height.parse().map_err(|_| "no height")?;
    Reader { from: BufReader::new(io::stdin().lock()) }.start(base)
}

fn main() {
    let words: Vec<String> = std::env::args().skip(1).collect();
    let answer = match &words[..] {
        [file] => open(file),
        [word, height] if word == "--snapshot" => start(height),
        _ => Err("bad words"),
    };
    match answer {
        Ok(index) => {
            println!("ready {}", index.names.len());
            let _ = io::stdin().read(&mut [0]);
            drop(index);
        }
        Err(why) => {
            println!("{why}");
            std::process::exit(1);
        }
    }
}
