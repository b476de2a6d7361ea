//! A search by workers: each has a machine of its own, and the states whose hashes are its. Nobody has to trust it.

use crate::Stop;
use crate::explorer::{Explorer, Scope, no_memory};
use crate::hashes::{Hashes, hash};
use rattle_std::{alloc::Global, vec::Vec as Words};
use std::sync::atomic::{AtomicBool, AtomicU64, Ordering};
use std::sync::{Barrier, Mutex};
use std::time::{Duration, Instant};

/// How many keys a worker goes on from before it hands over what it found of others.
const ROUND: usize = 1 << 13;

/// How often it is said how far the search is.
const EVERY: Duration = Duration::from_secs(10);

/// What is searched, and room for that many states.
#[derive(Clone, Copy)]
pub struct Task<'a> {
    pub scope: Scope<'a>,
    pub states: u64,
}

/// The states in the order in which a search finds them: of each the one from which it was found first, and by which
/// choice. The first is its own.
pub struct Found {
    pub parents: Vec<u32>,
    pub choices: Vec<u8>,
    pub depth: u32,
}

/// Keys that were found, one after another: the state from which, the choice, how many words, and the words.
struct Post(Vec<u32>);

impl Post {
    fn put(&mut self, parent: u32, choice: u32, key: &[u32]) {
        self.0.extend_from_slice(&[parent, choice, key.len() as u32]);
        self.0.extend_from_slice(key);
    }

    fn each(&self, mut f: impl FnMut(u32, u32, &[u32])) {
        let mut rest = self.0.as_slice();
        while let [parent, choice, count, words @ ..] = rest {
            let (key, more) = words.split_at(*count as usize);
            f(*parent, *choice, key);
            rest = more;
        }
    }
}

/// What the workers share.
struct Shared {
    post: Vec<Vec<Mutex<Post>>>,
    barrier: Barrier,
    // How many states there are, and how many keys of this layer and of the next wait to be gone on from.
    total: AtomicU64,
    waiting: AtomicU64,
    next: AtomicU64,
    failed: AtomicBool,
    begun: Instant,
    said: Mutex<Instant>,
}

impl Shared {
    fn new(count: usize) -> Shared {
        let post = || Mutex::new(Post(Vec::new()));
        Shared {
            post: (0..count).map(|_| (0..count).map(|_| post()).collect()).collect(),
            barrier: Barrier::new(count),
            total: AtomicU64::new(0),
            waiting: AtomicU64::new(0),
            next: AtomicU64::new(0),
            failed: AtomicBool::new(false),
            begun: Instant::now(),
            said: Mutex::new(Instant::now()),
        }
    }

    // Says how far the search is, now and then.
    fn say(&self, total: u64, depth: u32) {
        let mut said = self.said.lock().unwrap();
        if said.elapsed() >= EVERY {
            eprintln!("{total} states, depth {depth}, {:.0} s", self.begun.elapsed().as_secs_f64());
            *said = Instant::now();
        }
    }
}

/// One worker: its states, by the numbers of the states from which they were found, and the keys of two layers.
struct Worker {
    number: usize,
    count: usize,
    seen: Hashes,
    parents: Vec<u32>,
    choices: Vec<u8>,
    layer: Vec<u32>,
    next: Vec<u32>,
}

impl Worker {
    fn new(number: usize, count: usize) -> Worker {
        Worker {
            number,
            count,
            seen: Hashes::new(),
            parents: Vec::new(),
            choices: Vec::new(),
            layer: Vec::new(),
            next: Vec::new(),
        }
    }

    // The number of its state `at` among those of all workers.
    fn name(&self, at: usize) -> u32 {
        (at * self.count + self.number) as u32
    }

    // Takes a key of its own, if it is new.
    fn take(&mut self, hash: u64, parent: u32, choice: u32, key: &[u32]) {
        if self.seen.insert(hash) {
            self.next.push(key.len() as u32);
            self.next.extend_from_slice(key);
            self.parents.push(parent);
            self.choices.push(choice as u8);
        }
    }

    // Searches, and answers the depth of the last layer.
    fn run(&mut self, task: &Task, shared: &Shared) -> Result<u32, Stop> {
        let begun = self.begin(task, shared);
        shared.failed.fetch_or(begun.is_err(), Ordering::SeqCst);
        shared.barrier.wait();
        let mut explorer = begun?;
        let (mut depth, mut first) = (0, 0);
        loop {
            self.layer = std::mem::take(&mut self.next);
            let end = self.parents.len();
            self.make_layer(&mut explorer, first, depth, task, shared)?;
            shared.barrier.wait();
            if self.number == 0 {
                shared.waiting.store(shared.next.swap(0, Ordering::SeqCst), Ordering::SeqCst);
            }
            shared.barrier.wait();
            if shared.waiting.load(Ordering::SeqCst) == 0 {
                return Ok(depth);
            }
            first = end;
            depth += 1;
        }
    }

    // The explorer; the first state is taken by the worker whose it is.
    fn begin(&mut self, task: &Task, shared: &Shared) -> Result<Explorer, Stop> {
        let mut explorer = Explorer::new(&task.scope)?;
        let mut to = Words::new(Global);
        explorer.key(0, &mut to)?;
        if hash(&to) as usize % self.count == self.number {
            self.take(hash(&to), self.name(0), 0, &to);
            shared.waiting.store(1, Ordering::SeqCst);
            shared.total.store(1, Ordering::SeqCst);
        }
        Ok(explorer)
    }

    // Goes on from all keys of a layer, the first of which is that of state `first`, in rounds. What the workers share
    // is changed between two barriers, and read by all before the next.
    fn make_layer(
        &mut self,
        explorer: &mut Explorer,
        mut first: usize,
        depth: u32,
        task: &Task,
        shared: &Shared,
    ) -> Result<(), Stop> {
        let mut at = 0;
        while !shared.failed.load(Ordering::SeqCst) && shared.waiting.load(Ordering::SeqCst) > 0 {
            let before = self.parents.len();
            let done = self.round(explorer, &mut first, &mut at, shared);
            shared.failed.fetch_or(done.is_err(), Ordering::SeqCst);
            shared.barrier.wait();
            self.open_post(shared);
            let found = (self.parents.len() - before) as u64;
            shared.next.fetch_add(found, Ordering::SeqCst);
            let total = found + shared.total.fetch_add(found, Ordering::SeqCst);
            shared.waiting.fetch_sub(done.unwrap_or(0), Ordering::SeqCst);
            shared.barrier.wait();
            if self.number == 0 {
                shared.say(total, depth);
            }
            if shared.total.load(Ordering::SeqCst) > task.states {
                return Err(Stop::new(9, format!("stopped {}", task.states)));
            }
        }
        if shared.failed.load(Ordering::SeqCst) {
            return Err(no_memory(()));
        }
        Ok(())
    }

    // Goes on from some keys of the layer, the first of which is of state `first`, and answers from how many.
    fn round(
        &mut self,
        explorer: &mut Explorer,
        first: &mut usize,
        at: &mut usize,
        shared: &Shared,
    ) -> Result<u64, Stop> {
        let layer = std::mem::take(&mut self.layer);
        let mut posts: Vec<Post> = (0..self.count).map(|_| Post(Vec::new())).collect();
        let mut to = Words::new(Global);
        let mut done = 0;
        while *at < layer.len() && done < ROUND {
            let count = layer[*at] as usize;
            let key = &layer[*at + 1..*at + 1 + count];
            for choice in 0..explorer.choices() {
                if !explorer.next(key, choice, &mut to)? || to.as_slice() == key {
                    continue;
                }
                let (hash, parent) = (hash(&to), self.name(*first));
                let owner = hash as usize % self.count;
                if owner == self.number {
                    self.take(hash, parent, choice, &to);
                } else {
                    posts[owner].put(parent, choice, &to);
                }
            }
            *at += 1 + count;
            *first += 1;
            done += 1;
        }
        self.layer = layer;
        for (owner, post) in posts.into_iter().enumerate() {
            *shared.post[self.number][owner].lock().unwrap() = post;
        }
        Ok(done as u64)
    }

    fn open_post(&mut self, shared: &Shared) {
        for from in 0..self.count {
            let post = std::mem::replace(&mut *shared.post[from][self.number].lock().unwrap(), Post(Vec::new()));
            post.each(|parent, choice, key| self.take(hash(key), parent, choice, key));
        }
    }
}

// ---- all of it

/// Searches with that many workers.
pub fn search(task: &Task, count: usize) -> Result<Found, Stop> {
    let shared = Shared::new(count);
    let ended: Vec<Result<(Worker, u32), Stop>> = std::thread::scope(|scope| {
        let begin = |number| {
            let shared = &shared;
            scope.spawn(move || {
                let mut worker = Worker::new(number, count);
                let depth = worker.run(task, shared)?;
                worker.seen = Hashes::new();
                Ok((worker, depth))
            })
        };
        let threads: Vec<_> = (0..count).map(begin).collect();
        threads.into_iter().map(|thread| thread.join().unwrap()).collect()
    });
    let mut workers = Vec::new();
    let mut depth = 0;
    for end in ended {
        let (worker, deepest) = end?;
        depth = depth.max(deepest);
        workers.push(worker);
    }
    let (parents, choices) = in_order(workers);
    Ok(Found {
        parents,
        choices,
        depth,
    })
}

// The states of all workers in one order: each comes after the one from which it was found, and those that were found
// from one state are together, by their choices.
fn in_order(workers: Vec<Worker>) -> (Vec<u32>, Vec<u8>) {
    let count = workers.len();
    let mut starts = vec![0];
    for worker in &workers {
        starts.push(starts[starts.len() - 1] + worker.parents.len());
    }
    let mut parents = Vec::with_capacity(starts[count]);
    let mut choices = Vec::with_capacity(starts[count]);
    for worker in workers {
        let place = |name: &u32| (starts[*name as usize % count] + *name as usize / count) as u32;
        parents.extend(worker.parents.iter().map(place));
        choices.extend(worker.choices);
    }
    let root = (0..parents.len()).find(|place| parents[*place] as usize == *place).unwrap();
    let (ends, mut found) = found_from(&parents, root);
    let (mut order, mut of, mut by) = (vec![root as u32], vec![0], vec![0]);
    let mut at = 0;
    while at < order.len() {
        let place = order[at] as usize;
        let next = &mut found[ends[place] as usize..ends[place + 1] as usize];
        next.sort_unstable_by_key(|state| choices[*state as usize]);
        for state in next {
            order.push(*state);
            of.push(at as u32);
            by.push(choices[*state as usize]);
        }
        at += 1;
    }
    (of, by)
}

// The states by the ones from which they were found, and where those of each begin and end.
fn found_from(parents: &[u32], root: usize) -> (Vec<u32>, Vec<u32>) {
    let states = || (0..parents.len()).filter(|state| *state != root);
    let mut ends = vec![0u32; parents.len() + 1];
    for state in states() {
        ends[parents[state] as usize + 1] += 1;
    }
    for i in 1..ends.len() {
        ends[i] += ends[i - 1];
    }
    let mut places = ends.clone();
    let mut found = vec![0; parents.len() - 1];
    for state in states() {
        let place = &mut places[parents[state] as usize];
        found[*place as usize] = state as u32;
        *place += 1;
    }
    (ends, found)
}
