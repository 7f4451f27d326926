//! Entities in a `SlotMap`, components in `SecondaryMap`s.
mod common;
use common::{lap, print, with, Random};
use slotmap::{DefaultKey, SecondaryMap, SlotMap};
use std::time::Instant;

struct Entity {
    id: u64,
    parent: Option<DefaultKey>,
}

#[derive(Clone, Copy)]
struct Pair {
    x: u64,
    y: u64,
}

#[derive(Default)]
struct Scene {
    entities: SlotMap<DefaultKey, Entity>,
    positions: SecondaryMap<DefaultKey, Pair>,
    velocities: SecondaryMap<DefaultKey, Pair>,
    given: u64,
}

impl Scene {
    fn spawn(
        &mut self,
        parent: Option<DefaultKey>,
        at: Pair,
        velocity: Option<Pair>,
    ) -> DefaultKey {
        let id = self.given;
        self.given += 1;
        let p = self.entities.insert(Entity { id, parent });
        self.positions.insert(p, at);
        if let Some(velocity) = velocity {
            self.velocities.insert(p, velocity);
        }
        p
    }

    fn despawn(&mut self, p: DefaultKey) -> Option<u64> {
        let entity = self.entities.remove(p)?;
        self.positions.remove(p);
        self.velocities.remove(p);
        Some(entity.id)
    }

    fn reparent(&mut self, p: DefaultKey, parent: DefaultKey) -> bool {
        match self.entities.get_mut(p) {
            Some(entity) => {
                entity.parent = Some(parent);
                true
            }
            None => false,
        }
    }

    fn step(&mut self) {
        for (p, velocity) in &self.velocities {
            if let Some(position) = self.positions.get_mut(p) {
                position.x = position.x.wrapping_add(velocity.x);
                position.y = position.y.wrapping_add(velocity.y);
            }
        }
    }

    fn pass(&self) -> u64 {
        let mut sum = 0u64;
        for (p, entity) in &self.entities {
            let Some(&Pair { mut x, mut y }) = self.positions.get(p) else { continue };
            if let Some(from) = entity.parent.and_then(|parent| self.positions.get(parent)) {
                x = x.wrapping_add(from.x);
                y = y.wrapping_add(from.y);
            }
            sum = sum.wrapping_add((x ^ y.wrapping_mul(31)).wrapping_mul(entity.id));
        }
        sum
    }

    /// Adds to each velocity.
    fn drift(&mut self) {
        for velocity in self.velocities.values_mut() {
            velocity.x = velocity.x.wrapping_add(3);
            velocity.y = velocity.y.wrapping_add(1);
        }
    }

    /// Closes the gaps, by a map made anew.
    fn compress(&mut self, handles: &mut [DefaultKey]) {
        let mut map = SecondaryMap::with_capacity(self.entities.capacity());
        let mut entities = SlotMap::with_capacity(self.entities.len());
        let mut positions = SecondaryMap::with_capacity(self.entities.len());
        let mut velocities = SecondaryMap::with_capacity(self.entities.len());
        for (old, entity) in self.entities.drain() {
            let new = entities.insert(entity);
            map.insert(old, new);
            if let Some(at) = self.positions.get(old) {
                positions.insert(new, *at);
            }
            if let Some(velocity) = self.velocities.get(old) {
                velocities.insert(new, *velocity);
            }
        }
        for entity in entities.values_mut() {
            entity.parent = entity.parent.and_then(|parent| map.get(parent).copied());
        }
        for handle in handles {
            *handle = map.get(*handle).copied().unwrap_or_default();
        }
        self.entities = entities;
        self.positions = positions;
        self.velocities = velocities;
    }
}

fn spawn(scene: &mut Scene, random: &mut Random, handles: &[DefaultKey]) -> DefaultKey {
    let parent = if handles.is_empty() || random.below(4) == 0 {
        None
    } else {
        Some(handles[random.below(handles.len() as u64) as usize])
    };
    let at = Pair { x: random.below(1000), y: random.below(1000) };
    let velocity = if random.below(2) == 0 {
        Some(Pair { x: random.below(10), y: random.below(10) })
    } else {
        None
    };
    scene.spawn(parent, at, velocity)
}

fn event(scene: &mut Scene, random: &mut Random, handles: &mut [DefaultKey]) -> u64 {
    let kind = random.below(100);
    let at = random.below(handles.len() as u64) as usize;
    if kind < 40 {
        return scene.despawn(handles[at]).unwrap_or(5);
    }
    if kind < 80 {
        if scene.entities.contains_key(handles[at]) {
            return 2;
        }
        handles[at] = spawn(scene, random, handles);
        return 1;
    }
    let parent = handles[random.below(handles.len() as u64) as usize];
    scene.reparent(handles[at], parent) as u64
}

/// A pass of each kind over all, and a checksum.
fn passes(scene: &mut Scene, names: [&str; 3]) -> u64 {
    let [step, pass, drift] = names;
    let mut times = Vec::new();
    let mut start = Instant::now();
    scene.step();
    lap(&mut start, &mut times);
    print(step, &times);
    times.clear();
    start = Instant::now();
    let sum = scene.pass();
    lap(&mut start, &mut times);
    print(pass, &times);
    times.clear();
    start = Instant::now();
    scene.drift();
    lap(&mut start, &mut times);
    print(drift, &times);
    sum
}

fn main() {
    let n = std::env::args().nth(1).map_or(500, |n| n.parse::<u64>().unwrap());
    let mut random = Random(0x9e37_79b9_7f4a_7c15);
    let mut scene = Scene::default();
    let mut handles = Vec::with_capacity(n as usize);
    let mut sum = 0;
    let mut fill = Vec::new();
    let mut start = Instant::now();
    for k in 0..n {
        handles.push(spawn(&mut scene, &mut random, &handles));
        if k % 1000 == 999 {
            lap(&mut start, &mut fill);
        }
    }
    let mut mixed = Vec::new();
    start = Instant::now();
    for k in 0..n {
        sum = with(sum, event(&mut scene, &mut random, &mut handles));
        if k % 1000 == 999 {
            lap(&mut start, &mut mixed);
        }
    }
    sum = with(sum, passes(&mut scene, ["step", "pass", "drift"]));
    let mut compress = Vec::new();
    start = Instant::now();
    scene.compress(&mut handles);
    lap(&mut start, &mut compress);
    sum = with(sum, passes(&mut scene, ["step_after", "pass_after", "drift_after"]));
    print("fill", &fill);
    print("mixed", &mixed);
    print("compress", &compress);
    println!("sum {sum} entities {}", scene.entities.len());
}
