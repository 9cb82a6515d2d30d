//! Tests of the crate over librtheap.a.
use rtheap::numbers::{from_f32, from_int, join_f64, split_f64, to_f32, to_int};
use rtheap::{Command, Config, ErrorKind, Heap, Reply, Value, Width};

const CONFIG: Config = Config {
    shared: 4,
    ..Config::new(64, 20)
};

/// All commands.
fn work(heap: &mut Heap) -> Result<(), rtheap::Error> {
    let name = heap.record(1, 2)?;
    assert_eq!(heap.say(1)?, Value::Ref(name));
    heap.array(2, 3)?;
    assert_eq!(heap.len(2)?, 3);
    heap.set(3, (1 << 62) - 1)?;
    heap.put(1, 1, 3)?;
    assert_eq!(heap.get(4, 1, 1)?.number(), Some((1 << 62) - 1));
    assert_eq!(heap.get(5, 1, 0)?, Value::Nil);
    assert!(heap.same(3, 4)? && !heap.same(3, 5)?);
    heap.mov(6, 3)?;
    assert!(heap.cas(1, 1, 6, 2)? && !heap.cas(1, 1, 6, 2)?);
    let array = heap.say(2)?;
    assert_eq!(heap.swap(1, 1, 5)?, array);
    heap.nil(1)?;
    heap.idle(7)?;
    let s = heap.statistics();
    assert_eq!((s.commands, s.objects, s.fulls), (17, 2, 0));
    assert_eq!(s.units, 2 * s.rate + 7);
    Ok(())
}

#[test]
fn commands() {
    let mut heap = Heap::open(&CONFIG).unwrap();
    work(&mut heap).unwrap();
    let mut moved = heap; // the handle stays where it is
    assert_eq!(moved.say(3).unwrap().number(), Some((1 << 62) - 1));
    let other = std::thread::spawn(move || moved.statistics().commands);
    assert_eq!(other.join().unwrap(), 18);
}

#[test]
fn lent_memory() {
    let mut memory = vec![u64::MAX; CONFIG.words()];
    for _ in 0..3 {
        let mut heap = Heap::open_in(&CONFIG, &mut memory).unwrap();
        work(&mut heap).unwrap();
    }
    for words in [0, 31, 32, CONFIG.words() - 1] {
        let error = Heap::open_in(&CONFIG, &mut memory[..words]).unwrap_err();
        assert_eq!(error.kind, ErrorKind::TooSmall);
        assert_eq!(error.argument, Some("bytes"));
    }
}

#[test]
fn reads() {
    let mut heap = Heap::open(&CONFIG).unwrap();
    heap.record(1, 2).unwrap();
    heap.set(2, 1250).unwrap();
    heap.put(1, 1, 2).unwrap();
    heap.put(0, 3, 1).unwrap();
    let before = heap.statistics();
    assert_eq!(heap.peek(1, 1), Ok(Value::Int(1250)));
    assert_eq!(heap.peek_path(0, &[3, 1]), Ok(Value::Int(1250)));
    assert_eq!(heap.peek_path(0, &[3, 0]), Ok(Value::Nil));
    assert_eq!(heap.peek_path(2, &[]), Ok(Value::Int(1250)));
    assert_eq!(heap.statistics(), before);
    let error = heap.peek_path(0, &[3, 2]).unwrap_err();
    assert_eq!(error.kind, ErrorKind::Range);
    assert_eq!((error.argument, error.value), (Some("place in indices"), 1));
    assert_eq!(heap.peek(16, 0).unwrap_err().argument, Some("s"));
}

#[test]
fn saves() {
    let mut heap = Heap::open(&CONFIG).unwrap();
    heap.record(1, 2).unwrap();
    heap.set(2, 1250).unwrap();
    heap.put(1, 1, 2).unwrap();
    heap.put(0, 3, 1).unwrap();
    assert!(heap.text().unwrap().contains("1: record 2 [nil, 1250]\n"));
    assert!(heap.dot().unwrap().starts_with("digraph heap {"));
    let saved = heap.save().unwrap();
    let loaded = Heap::load(&CONFIG, &saved).unwrap();
    assert_eq!(loaded.peek_path(0, &[3, 1]), Ok(Value::Int(1250)));
    assert_eq!(loaded.save(), Ok(saved.clone()));
    let error = Heap::load(&CONFIG, &saved[1..]).unwrap_err();
    assert_eq!(error.kind, ErrorKind::NotSaved);
    let mut memory = vec![0; CONFIG.words()];
    let lent = Heap::open_in(&CONFIG, &mut memory).unwrap();
    assert!(lent.save().is_ok());
}

#[test]
fn refusals() {
    let error = Heap::open(&Config::new(20, 20)).unwrap_err();
    assert_eq!(error.kind, ErrorKind::Rate);
    assert_eq!((error.argument, error.least), (Some("blocks"), 24));
    assert!(error.to_string().contains("blocks is 20; at least 24"));
    let mut heap = Heap::open(&CONFIG).unwrap();
    let error = heap.set(16, 1).unwrap_err();
    assert_eq!((error.kind, error.argument), (ErrorKind::Bounds, Some("d")));
    assert_eq!(heap.get(1, 2, 0).unwrap_err().kind, ErrorKind::Nil);
    assert_eq!(heap.get(1, 0, 4).unwrap_err().kind, ErrorKind::Range);
    let four = Config {
        width: Width::Four,
        ..CONFIG
    };
    let error = Heap::open(&four).unwrap().idle(1).unwrap_err();
    assert_eq!(error.argument, Some("width"));
}

#[test]
fn full() {
    let mut heap = Heap::open(&CONFIG).unwrap();
    let error = loop {
        let step = heap
            .record(1, 2)
            .and_then(|_| heap.put(1, 0, 2))
            .and_then(|()| heap.mov(2, 1));
        if let Err(error) = step {
            break error;
        }
    };
    assert_eq!(error.kind, ErrorKind::Full);
    let s = heap.statistics();
    assert_eq!((s.fulls, s.full_cycle), (1, error.value));
}

#[test]
fn numbers() {
    for n in [0, 1, -1, (1 << 61) - 1, -(1 << 61)] {
        let number = from_int(n).unwrap();
        assert!(number < 1 << 62);
        assert_eq!(to_int(number), n);
    }
    assert_eq!((from_int(1 << 61), from_int(-(1 << 61) - 1)), (None, None));
    assert_eq!(to_f32(from_f32(-0.25)), -0.25);
    for x in [0.0, -21.5, f64::MAX, f64::INFINITY] {
        assert_eq!(join_f64(split_f64(x)), x);
    }
    assert!(rtheap::is_known_version());
}

#[test]
fn groups() {
    use rtheap::Group;
    use std::thread::{spawn, yield_now};
    let config = Config {
        threads: 3,
        ..Config::new(512, 128)
    };
    let mut group = Group::open(&Config {
        shared: 1,
        ..config
    })
    .unwrap();
    let mut first = group.attach().unwrap();
    let set = Command::Set { d: 1, value: 0 };
    first.ask(set, yield_now).unwrap();
    first
        .ask(Command::Put { s: 0, i: 0, v: 1 }, yield_now)
        .unwrap();
    let others = [group.attach().unwrap(), group.attach().unwrap()];
    assert_eq!(group.attach().unwrap_err().kind, ErrorKind::NoWorker);
    let threads = others.map(|mut worker| {
        spawn(move || {
            for _ in 0..500 {
                count(&mut worker).unwrap();
            }
            worker
        })
    });
    for thread in threads {
        group.give_back(thread.join().unwrap()).unwrap();
    }
    let got = first
        .ask(Command::Get { d: 1, s: 0, i: 0 }, yield_now)
        .unwrap();
    assert_eq!(got, Reply::Value(Value::Int(1000)));
    let (mut group, error) = group.finish().unwrap_err();
    assert_eq!(error.kind, ErrorKind::WorkersOut);
    first.start(Command::Nil { d: 1 }).unwrap();
    let (mut first, error) = group.give_back(first).unwrap_err();
    assert_eq!(error.kind, ErrorKind::Busy);
    while first.poll(9).unwrap().is_none() {}
    let stamp = first.stamp().unwrap();
    first.follow(stamp).unwrap();
    assert_eq!(first.thread(), 0);
    group.give_back(first).unwrap();
    assert!(group.finish().unwrap() >= 1);
}

/// Adds 1 to the element.
fn count(worker: &mut rtheap::Worker) -> Result<(), rtheap::Error> {
    use std::thread::yield_now;
    loop {
        let got = worker.ask(Command::Get { d: 1, s: 0, i: 0 }, yield_now)?;
        let Reply::Value(Value::Int(number)) = got else {
            panic!("no number");
        };
        let value = number + 1;
        worker.ask(Command::Set { d: 2, value }, yield_now)?;
        let stored = worker.ask(
            Command::Cas {
                s: 0,
                i: 0,
                a: 1,
                v: 2,
            },
            yield_now,
        )?;
        if stored.is_yes() {
            return Ok(());
        }
    }
}
