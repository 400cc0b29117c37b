//! two_centres SCRIPT
//!
//! Two data centres, each a node of the C library, do what a script asks of its clusters A and B.
//! `settle` has them exchange frames, at first with losses, until nothing changes; `# restart NAME` ends
//! a node and loads it from what was kept. Prints the answers to the lines `dump`, numbered as in the
//! script: what `ndc run` prints of them.

use ndc::{Answer, Bounds, Error, Node};
use std::io::Write;

const NAMES: [&str; 2] = ["A", "B"];
const LOSSY_ROUNDS: usize = 5;
const LOSS_PERCENT: u64 = 40;
const BOUNDS: Bounds = Bounds {
    frame: 1_048_576,
    waiting: 100_000,
    held: 100_000,
    letters: 1_000,
};

type Failure = Box<dyn std::error::Error>;

/// A node, what was kept of it, and how many batches an index was told.
struct Centre {
    node: Node,
    kept: Vec<u8>,
    learned: usize,
}

impl Centre {
    fn open(header: &str, name: &str) -> Result<Centre, Error> {
        let mut node = Node::open(header.as_bytes(), name.as_bytes(), &BOUNDS)?;
        let kept = node.store()?.text;
        Ok(Centre {
            node,
            kept,
            learned: 0,
        })
    }

    /// Keeps the units that are not stored: whether there was one.
    fn keep(&mut self) -> Result<bool, Error> {
        let mut has_changed = false;
        while let Some(unit) = self.node.change()? {
            self.kept.extend_from_slice(&unit.text);
            self.node.stored(unit.number)?;
            has_changed = true;
        }
        Ok(has_changed)
    }

    /// Keeps what a call changed, and tells the index what was learned: whether it changed anything.
    fn end_call(&mut self, answer: &Answer) -> Result<bool, Error> {
        let has_changed = self.keep()?;
        self.learned += answer.learned().count();
        Ok(has_changed)
    }

    /// Does a line. A refusal is an answer as well, and no failure here.
    fn line(&mut self, line: &str) -> Result<Option<Answer>, Error> {
        match self.node.line(line.as_bytes()) {
            Ok(answer) => {
                self.end_call(&answer)?;
                Ok(Some(answer))
            }
            Err(Error::Refused { .. }) => Ok(None),
            Err(error) => Err(error),
        }
    }

    /// The node ends, with a unit half written, and is loaded.
    fn restart(&mut self) -> Result<(), Failure> {
        let torn = b"unit 9";
        let mut kept = self.kept.clone();
        kept.extend_from_slice(torn);
        let (node, dropped) = Node::load(&kept, &BOUNDS)?;
        if dropped != torn.len() as u64 {
            return Err("what was not written whole is not dropped".into());
        }
        self.node = node;
        self.keep()?;
        Ok(())
    }
}

/// A frame on its way, by the places of its centres.
struct Frame {
    from: usize,
    to: usize,
    text: Vec<u8>,
}

/// Frames of an answer, on their way.
fn frames_of(answer: &Answer, from: usize, to: usize) -> impl Iterator<Item = Frame> + '_ {
    answer.frames().map(move |text| Frame {
        from,
        to,
        text: text.to_vec(),
    })
}

/// Centres, and the line between them.
struct Network {
    centres: [Centre; 2],
    state: u64,
}

impl Network {
    /// Whether a frame is lost; not at random but as good as.
    fn loses(&mut self, percent: u64) -> bool {
        self.state = self
            .state
            .wrapping_mul(6_364_136_223_846_793_005)
            .wrapping_add(1_442_695_040_888_963_407);
        (self.state >> 33) % 100 < percent
    }

    /// Each centre asks the other one, and answers go back: whether any node changed.
    fn round(&mut self, percent: u64) -> Result<bool, Error> {
        let mut frames = Vec::new();
        for from in 0..2 {
            let to = 1 - from;
            let answer = self.centres[from].node.ask(NAMES[to].as_bytes())?;
            frames.extend(frames_of(&answer, from, to));
        }
        let mut has_changed = false;
        while !frames.is_empty() {
            let mut answers = Vec::new();
            for frame in frames {
                if self.loses(percent) {
                    continue;
                }
                let centre = &mut self.centres[frame.to];
                let answer = centre.node.hear(&frame.text)?;
                has_changed |= centre.end_call(&answer)?;
                answers.extend(frames_of(&answer, frame.to, frame.from));
            }
            frames = answers;
        }
        Ok(has_changed)
    }

    fn exchange(&mut self) -> Result<(), Error> {
        for _round in 0..LOSSY_ROUNDS {
            self.round(LOSS_PERCENT)?;
        }
        while self.round(0)? {}
        Ok(())
    }

    fn settle(&mut self) -> Result<(), Error> {
        self.exchange()?;
        for centre in &mut self.centres {
            centre.line("reapply")?;
        }
        self.exchange()
    }
}

/// The place of a cluster's name.
fn place_of(name: &str) -> Option<usize> {
    NAMES.iter().position(|one| *one == name)
}

fn run(script: &str) -> Result<(), Failure> {
    let is_of_header = |line: &&str| {
        ["ndc ", "increment ", "shards ", "limit ", "cluster "]
            .iter()
            .any(|word| line.starts_with(word))
    };
    let header: String = script.split_inclusive('\n').filter(is_of_header).collect();
    let centres = [
        Centre::open(&header, NAMES[0])?,
        Centre::open(&header, NAMES[1])?,
    ];
    let mut network = Network { centres, state: 1 };
    let mut out = std::io::stdout().lock();
    for (place, line) in script.lines().enumerate() {
        let words: Vec<&str> = line.splitn(3, ' ').collect();
        match words[..] {
            ["#", "restart", name] => {
                if let Some(centre) = place_of(name) {
                    network.centres[centre].restart()?;
                }
            }
            ["settle"] => network.settle()?,
            ["cluster", ..] | ["#", ..] => {}
            [word, name, rest] => {
                let Some(centre) = place_of(name) else {
                    continue;
                };
                let answer = network.centres[centre].line(&format!("{word} {rest}"))?;
                if let (true, Some(answer)) = (word == "dump", answer) {
                    let text = answer.as_bytes();
                    let number = text.iter().position(|byte| *byte == b' ').unwrap_or(0);
                    write!(out, "{}", place + 1)?;
                    out.write_all(&text[number..])?;
                }
            }
            _ => {}
        }
    }
    for (name, centre) in NAMES.iter().zip(&network.centres) {
        eprintln!(
            "{name}: {} batches for an index, {} bytes are kept",
            centre.learned,
            centre.kept.len()
        );
    }
    Ok(())
}

fn main() -> Result<(), Failure> {
    let words: Vec<String> = std::env::args().skip(1).collect();
    let [path] = &words[..] else {
        return Err("words: two_centres SCRIPT".into());
    };
    run(&std::fs::read_to_string(path)?)
}
