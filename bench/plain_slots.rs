// The plain program that the proved one is compared with: the newest version is an Arc under std's Mutex or RwLock, and a
// reader takes a handle of it under the lock.
use std::sync::atomic::{AtomicU64, Ordering};
use std::sync::{Arc, Mutex, RwLock};
use std::thread;
use std::time::Instant;

const READERS: u64 = 3;

trait Slot: Sync {
    fn new(first: Arc<u64>) -> Self;
    fn load(&self) -> Arc<u64>;
    fn store(&self, next: Arc<u64>);
}

struct UnderMutex(Mutex<Arc<u64>>);

struct UnderRwLock(RwLock<Arc<u64>>);

impl Slot for UnderMutex {
    fn new(first: Arc<u64>) -> Self {
        UnderMutex(Mutex::new(first))
    }

    fn load(&self) -> Arc<u64> {
        self.0.lock().unwrap().clone()
    }

    fn store(&self, next: Arc<u64>) {
        let last = std::mem::replace(&mut *self.0.lock().unwrap(), next);
        drop(last);
    }
}

impl Slot for UnderRwLock {
    fn new(first: Arc<u64>) -> Self {
        UnderRwLock(RwLock::new(first))
    }

    fn load(&self) -> Arc<u64> {
        self.0.read().unwrap().clone()
    }

    fn store(&self, next: Arc<u64>) {
        let last = std::mem::replace(&mut *self.0.write().unwrap(), next);
        drop(last);
    }
}

#[derive(Clone, Copy, Default)]
struct Entered {
    count: u64,
    falls: u64,
    nanos: u64,
}

#[derive(Clone, Copy, Default)]
struct Published {
    count: u64,
    nanos: u64,
    longest: u64,
}

fn enter_often<S: Slot>(slot: &S, times: u64) -> Entered {
    let start = Instant::now();
    let mut met = Entered::default();
    let mut last = 0;
    for _ in 0..times {
        let number = *slot.load();
        met.falls += u64::from(number < last);
        met.count += 1;
        last = number;
    }
    met.nanos = start.elapsed().as_nanos() as u64;
    met
}

fn publish_until_done<S: Slot>(slot: &S, done: &AtomicU64) -> Published {
    let mut published = Published::default();
    loop {
        let start = Instant::now();
        if done.load(Ordering::SeqCst) >= READERS {
            return published;
        }
        slot.store(Arc::new(published.count + 1));
        let nanos = start.elapsed().as_nanos() as u64;
        published.count += 1;
        published.nanos += nanos;
        published.longest = published.longest.max(nanos);
    }
}

fn run<S: Slot>(beside: bool, times: u64) -> (Entered, Published) {
    let slot = S::new(Arc::new(1));
    if !beside {
        return (enter_often(&slot, times), Published::default());
    }
    slot.store(Arc::new(0));
    let done = AtomicU64::new(0);
    thread::scope(|scope| {
        let reader = || {
            let met = enter_often(&slot, times);
            done.fetch_add(1, Ordering::SeqCst);
            met
        };
        let readers: Vec<_> = (0..READERS).map(|_| scope.spawn(reader)).collect();
        let published = publish_until_done(&slot, &done);
        let mut met = Entered::default();
        for reader in readers {
            let one = reader.join().unwrap();
            met.count += one.count;
            met.falls += one.falls;
            met.nanos += one.nanos / READERS;
        }
        (met, published)
    })
}

fn main() {
    let words: Vec<String> = std::env::args().collect();
    let beside = words[1] == "beside";
    let times = words[2].parse().unwrap();
    let rounds: u32 = words[3].parse().unwrap();
    let run = match words[4].as_str() {
        "mutex" => run::<UnderMutex>,
        _ => run::<UnderRwLock>,
    };
    let (met, _) = run(beside, times);
    println!("entered {} fell {}", met.count, met.falls);
    let best = (0..rounds).map(|_| run(beside, times)).min_by_key(|(met, _)| met.nanos);
    if let Some((met, published)) = best {
        println!("{} {} {} {}", met.nanos, published.count, published.nanos, published.longest);
    }
}
