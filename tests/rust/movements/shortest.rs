//! The least sum over all movements of the head, by shortest paths.

/// What is wanted, from its start to its end, with its reads.
#[derive(Clone, Copy, Debug)]
pub struct Stop {
    pub start: u64,
    pub end: u64,
    pub reads: u64,
}

const FAR: u64 = u64::MAX / 4;

/// For one set of stops that are read: what the reads that are not done must still wait, at least, all together.
#[derive(Clone)]
struct Ways {
    left: Vec<u64>,       // facing left, by place
    right: Vec<Vec<u64>>, // facing right, by where the run has started, then by place
}

struct Tape<'a> {
    stops: &'a [Stop],
    turn: u64,
    places: usize,
}

impl Tape<'_> {
    fn all_equal(&self, word: u64) -> Ways {
        Ways { left: vec![word; self.places], right: vec![vec![word; self.places]; self.places] }
    }

    fn waiting(&self, read: usize) -> u64 {
        self.stops.iter().enumerate().filter(|(i, _)| read >> i & 1 == 0).map(|(_, stop)| stop.reads).sum()
    }

    /// What is read once a run to the right from `from` has come to `place`.
    fn read_at(&self, read: usize, from: usize, place: usize) -> usize {
        let done = |stop: &Stop| from as u64 <= stop.start && stop.end == place as u64;
        self.stops.iter().enumerate().filter(|(_, stop)| done(stop)).fold(read, |set, (i, _)| set | 1 << i)
    }

    /// One step or one turn from every state with these stops read; whether some way has become shorter.
    fn relax(&self, read: usize, ways: &mut [Ways]) -> bool {
        let step = self.waiting(read);
        let turn = self.turn * step;
        let mut shorter = false;
        for place in 0..self.places {
            let further = if place > 0 { step + ways[read].left[place - 1] } else { FAR };
            let way = further.min(turn + ways[read].right[place][place]);
            shorter |= way < ways[read].left[place];
            ways[read].left[place] = way.min(ways[read].left[place]);
        }
        for from in 0..self.places {
            for place in (from..self.places).rev() {
                let next = self.read_at(read, from, place + 1);
                let further = if place + 1 < self.places { step + ways[next].right[from][place + 1] } else { FAR };
                let way = further.min(turn + ways[read].left[place]);
                shorter |= way < ways[read].right[from][place];
                ways[read].right[from][place] = way.min(ways[read].right[from][place]);
            }
        }
        shorter
    }
}

/// By the place where the head starts, facing left: the least sum of all movements that read every stop and stay below `places`.
/// States with more stops read are done first; among those with the same, until no way becomes shorter.
pub fn least_sums(stops: &[Stop], turn: u64, places: usize) -> Vec<u64> {
    let tape = Tape { stops, turn, places };
    let all = (1 << stops.len()) - 1;
    let mut ways = vec![tape.all_equal(FAR); all];
    ways.push(tape.all_equal(0));
    for read in (0..all).rev() {
        while tape.relax(read, &mut ways) {}
    }
    ways.swap_remove(0).left
}
