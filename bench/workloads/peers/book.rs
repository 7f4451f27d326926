//! A `BTreeMap` of levels a side, and a doubly linked list in a slab by hand.
mod common;
use common::{lap, print, with, Random};
use std::collections::BTreeMap;
use std::time::Instant;

const NONE: u32 = u32::MAX;

struct Order {
    price: u64,
    quantity: u64,
    id: u64,
    prev: u32,
    next: u32,
    bid: bool,
}

struct Level {
    first: u32,
    last: u32,
    quantity: u64,
}

#[derive(Default)]
struct Book {
    bids: BTreeMap<u64, Level>,
    asks: BTreeMap<u64, Level>,
    orders: Vec<Order>,
    free: u32,
    live: usize,
    // The index of each order, by its id, or NONE once it ended.
    ids: Vec<u32>,
}

impl Book {
    fn new() -> Self {
        Book { free: NONE, ..Default::default() }
    }

    fn add(&mut self, bid: bool, price: u64, quantity: u64) -> u64 {
        let id = self.ids.len() as u64;
        let at = if self.free == NONE { self.orders.len() as u32 } else { self.free };
        let levels = if bid { &mut self.bids } else { &mut self.asks };
        let level = levels.entry(price).or_insert(Level { first: NONE, last: NONE, quantity: 0 });
        let order = Order { price, quantity, id, prev: level.last, next: NONE, bid };
        if self.free == NONE {
            self.orders.push(order);
        } else {
            self.free = self.orders[at as usize].next;
            self.orders[at as usize] = order;
        }
        if level.last == NONE {
            level.first = at;
        } else {
            self.orders[level.last as usize].next = at;
        }
        level.last = at;
        level.quantity += quantity;
        self.live += 1;
        self.ids.push(at);
        id
    }

    // Takes an order out of its level, and the level if it was the last one there.
    fn take(&mut self, at: u32) -> (u64, u64) {
        let Order { price, quantity, id, prev, next, bid } = self.orders[at as usize];
        if prev != NONE {
            self.orders[prev as usize].next = next;
        }
        if next != NONE {
            self.orders[next as usize].prev = prev;
        }
        let levels = if bid { &mut self.bids } else { &mut self.asks };
        if prev == NONE && next == NONE {
            levels.remove(&price);
        } else {
            let level = levels.get_mut(&price).unwrap();
            level.quantity -= quantity;
            if prev == NONE {
                level.first = next;
            }
            if next == NONE {
                level.last = prev;
            }
        }
        self.orders[at as usize].next = self.free;
        self.free = at;
        self.live -= 1;
        self.ids[id as usize] = NONE;
        (quantity, id)
    }

    fn cancel(&mut self, id: u64) -> Option<u64> {
        let at = self.ids[id as usize];
        if at == NONE {
            return None;
        }
        Some(self.take(at).0)
    }

    fn execute(&mut self, bid: bool, quantity: u64) -> u64 {
        let mut left = quantity;
        let mut cost = 0u64;
        while left > 0 {
            let best = if bid { self.bids.last_entry() } else { self.asks.first_entry() };
            let Some(mut best) = best else { break };
            let price = *best.key();
            let level = best.get_mut();
            let first = level.first;
            let order = &mut self.orders[first as usize];
            let id = order.id;
            let traded;
            if order.quantity > left {
                order.quantity -= left;
                level.quantity -= left;
                traded = left;
            } else {
                traded = self.take(first).0;
            }
            left -= traded;
            cost = cost.wrapping_add(traded * price).wrapping_add(id);
        }
        cost
    }

    /// A checksum of all bids, by price and then by arrival.
    fn walk(&self) -> u64 {
        let mut sum = 0;
        for level in self.bids.values() {
            let mut at = level.first;
            while at != NONE {
                let order = &self.orders[at as usize];
                sum = with(with(sum, order.id), order.quantity);
                at = order.next;
            }
        }
        sum
    }
}

fn add(book: &mut Book, random: &mut Random, ticks: u64) -> u64 {
    let bid = random.below(2) == 0;
    let offset = random.below(ticks);
    let price = if bid { 10_000_000 - offset } else { 10_000_001 + offset };
    let quantity = random.below(100) + 1;
    book.add(bid, price, quantity)
}

fn event(book: &mut Book, random: &mut Random, ticks: u64) -> u64 {
    let kind = random.below(100);
    if kind < 50 {
        return add(book, random, ticks);
    }
    if kind < 90 {
        let id = random.below(book.ids.len() as u64);
        return book.cancel(id).unwrap_or(7);
    }
    let bid = random.below(2) == 0;
    let quantity = random.below(100) + 1;
    book.execute(bid, quantity)
}

fn main() {
    let mut args = std::env::args().skip(1).map(|n| n.parse::<u64>().unwrap());
    let n = args.next().unwrap_or(500);
    let ticks = args.next().unwrap_or(64);
    let mut random = Random(0x9e37_79b9_7f4a_7c15);
    let mut book = Book::new();
    let mut sum = 0;
    let mut fill = Vec::new();
    let mut start = Instant::now();
    for k in 0..n {
        sum = with(sum, add(&mut book, &mut random, ticks));
        if k % 1000 == 999 {
            lap(&mut start, &mut fill);
        }
    }
    let mut mixed = Vec::new();
    start = Instant::now();
    for k in 0..n {
        sum = with(sum, event(&mut book, &mut random, ticks));
        if k % 1000 == 999 {
            lap(&mut start, &mut mixed);
        }
    }
    let mut walk = Vec::new();
    start = Instant::now();
    sum = with(sum, book.walk());
    lap(&mut start, &mut walk);
    println!("sum {sum} orders {} levels {}", book.live, book.bids.len());
    print("fill", &fill);
    print("mixed", &mixed);
    print("walk", &walk);
}
