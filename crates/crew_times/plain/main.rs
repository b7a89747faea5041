// A plain Rust program of the shape of `crew_times`: four threads with a channel of capacity 1 each,
// one channel for all results, and a driver that makes each job, sends it to a free seat, waits for a
// result, compares it with the open job, and keeps the answer. Built by `rustc -O main.rs`.
//
// The bounded channels of the standard library are those of crossbeam-channel (the array flavour).
use std::sync::mpsc::{Receiver, SyncSender, sync_channel};
use std::thread;
use std::time::Instant;

const JOBS: u32 = 100_000;
const SEATS: usize = 4;
const RUNS: u32 = 7;

#[derive(Clone, Copy, PartialEq, Eq)]
enum Act {
    #[allow(dead_code)]
    Put,
    Delete,
}

#[allow(dead_code)]
enum Body {
    Null,
    Number(i64),
    Text(String),
    Array(Vec<Body>),
    Object(Vec<(String, Body)>),
}

#[allow(dead_code)]
struct Job {
    task: u32,
    worker: u32,
    act: Act,
    id: String,
    api: String,
    body: Body,
    first: Vec<u8>,
}

#[allow(dead_code)]
enum Answer {
    Stored(Body, Vec<u8>),
    Gone,
    Refused(String),
}

enum Fault {
    #[allow(dead_code)]
    Fault,
    #[allow(dead_code)]
    OutOfMemory,
}

enum Order {
    Run(Job),
    Stop,
}

struct Done {
    worker: u32,
    job: Job,
    got: Result<Answer, Fault>,
}

#[allow(dead_code)]
enum Mark {
    Begun,
    Answered(u32, Answer),
    GivenBack(u32),
}

// What a dealer of so many deletions keeps.
struct Row {
    stages: Vec<u8>,
    marks: Vec<Mark>,
    opened: usize,
    next: usize,
}

enum Next {
    Begun(Job),
    Wait,
    End,
}

impl Row {
    fn new(jobs: u32) -> Row {
        Row {
            stages: vec![0; jobs as usize],
            marks: Vec::with_capacity(2 * jobs as usize),
            opened: 0,
            next: 0,
        }
    }

    fn next(&mut self, worker: u32) -> Next {
        if self.next >= self.stages.len() {
            return if self.opened > 0 { Next::Wait } else { Next::End };
        }
        let task = self.next as u32;
        let id = String::from("/subscriptions/s/resourceGroups/g/providers/Demo.Lab/things/t");
        let api = String::new();
        let first = format!(
            "{{\"api\":\"{api}\",\"body\":null,\"id\":\"{id}\",\"task\":{task},\"worker\":{worker}}}"
        )
        .into_bytes();
        self.marks.push(Mark::Begun);
        self.stages[self.next] = 1;
        self.opened += 1;
        self.next += 1;
        Next::Begun(Job {
            task,
            worker,
            act: Act::Delete,
            id,
            api,
            body: Body::Null,
            first,
        })
    }

    fn answer(&mut self, task: u32, answer: Answer) {
        self.marks.push(Mark::Answered(task, answer));
        self.stages[task as usize] = 2;
        self.opened -= 1;
    }

    fn back(&mut self, task: u32) {
        self.marks.push(Mark::GivenBack(task));
        self.stages[task as usize] = 0;
        self.opened -= 1;
    }
}

trait Provider: Send {
    fn put(&mut self, job: &Job) -> Result<Answer, Fault>;
    fn delete(&mut self, job: &Job) -> Result<Answer, Fault>;
}

struct Idle;

impl Provider for Idle {
    fn put(&mut self, _job: &Job) -> Result<Answer, Fault> {
        Ok(Answer::Refused(String::from("Idle")))
    }

    fn delete(&mut self, _job: &Job) -> Result<Answer, Fault> {
        Ok(Answer::Gone)
    }
}

fn work<P: Provider>(
    number: u32,
    mut provider: P,
    from: &Receiver<Order>,
    to: &SyncSender<Done>,
) -> P {
    while let Ok(Order::Run(job)) = from.recv() {
        let got = match job.act {
            Act::Put => provider.put(&job),
            Act::Delete => provider.delete(&job),
        };
        let done = Done {
            worker: number,
            job,
            got,
        };
        if to.send(done).is_err() {
            break;
        }
    }
    provider
}

// Asks for a job for each free seat; whether the dealer has come to its end.
fn deal(row: &mut Row, seats: &[SyncSender<Order>], opens: &mut [Option<(u32, Act)>]) -> bool {
    for k in 0..opens.len() {
        if opens[k].is_none() {
            match row.next(k as u32) {
                Next::Begun(job) => {
                    opens[k] = Some((job.task, job.act));
                    seats[k].send(Order::Run(job)).unwrap();
                }
                Next::Wait => return false,
                Next::End => return true,
            }
        }
    }
    false
}

fn drive(row: &mut Row, providers: Vec<Idle>) -> Vec<Idle> {
    let count = providers.len();
    let (to, results) = sync_channel::<Done>(count);
    let mut senders = Vec::new();
    let mut receivers = Vec::new();
    for _ in 0..count {
        let (sender, receiver) = sync_channel::<Order>(1);
        senders.push(sender);
        receivers.push(receiver);
    }
    thread::scope(|scope| {
        let mut threads = Vec::new();
        for (number, (provider, from)) in providers.into_iter().zip(receivers).enumerate() {
            let to = to.clone();
            threads.push(scope.spawn(move || work(number as u32, provider, &from, &to)));
        }
        let mut opens = vec![None; count];
        loop {
            let ended = deal(row, &senders, &mut opens);
            if opens.iter().all(|open| open.is_none()) {
                if ended {
                    break;
                }
                continue;
            }
            let done = results.recv().unwrap();
            let open = opens[done.worker as usize].take();
            assert!(open == Some((done.job.task, done.job.act)));
            match done.got {
                Ok(answer) => row.answer(done.job.task, answer),
                Err(_) => row.back(done.job.task),
            }
        }
        for sender in &senders {
            sender.send(Order::Stop).unwrap();
        }
        threads.into_iter().map(|t| t.join().unwrap()).collect()
    })
}

fn main() {
    println!("plain: {SEATS} seats, {JOBS} jobs, {RUNS} runs");
    for _ in 0..RUNS {
        let mut row = Row::new(JOBS);
        let providers = (0..SEATS).map(|_| Idle).collect();
        let start = Instant::now();
        let providers = drive(&mut row, providers);
        let elapsed = start.elapsed();
        assert!(providers.len() == SEATS && row.next == JOBS as usize);
        println!("{} us", elapsed.as_micros());
    }
}
