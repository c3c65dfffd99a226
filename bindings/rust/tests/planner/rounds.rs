// Why a run of rounds for weights ends: on the jobs of the scope, and on many small ones, where the rounds that a planner
// runs with ample memory are those that it runs with less, up to the one that it names.
use crate::{kind, AMPLE};
use planner::{Choices, Ended, Error, FoundWeights, Job, Planner, Tree};

fn found(job: &Job, memory: u64) -> Result<FoundWeights, Error> {
    Planner::new(job, Choices::default(), memory).find_weights(&Tree::Waste.plan())
}

#[test]
fn runs_end_by_their_own_rules() {
    let steep = Job { length: 6, width: 6, kerf: 0, kinds: vec![kind(1, 1, 1_000_000, 17)] };
    let FoundWeights { bound, rounds, ended, .. } = found(&steep, AMPLE).expect("weights");
    assert_eq!((bound, rounds, ended), (36_000_000, 1, Ended::Capacity));
    let kinds = vec![kind(3, 1, 25, 2), kind(1, 2, 27, 1)];
    let long = found(&Job { length: 3, width: 3, kerf: 0, kinds }, AMPLE).expect("weights");
    let wanted = FoundWeights { bound: 75, rounds: 18, weights: vec![0, 9], ended: Ended::Rounds };
    assert_eq!(long, wanted);
}

/// Two large pieces are worth most and one too many; the next round fills one half of the plate with 2,400 small ones.
#[test]
fn plans_of_too_many_nodes_end_a_run() {
    let job = Job { length: 60, width: 80, kerf: 0, kinds: vec![kind(60, 40, 3_000, 1), kind(1, 1, 1, 255)] };
    let FoundWeights { bound, rounds, ended, .. } = found(&job, AMPLE << 10).expect("weights");
    assert_eq!((bound, rounds, ended), (6_000, 1, Ended::Nodes(2 * 2_401 - 1)));
}

/// Numbers from a seed.
struct Dice(u64);

impl Dice {
    fn below(&mut self, most: u64) -> u64 {
        self.0 = self.0.wrapping_mul(6_364_136_223_846_793_005).wrapping_add(1_442_695_040_888_963_407);
        (self.0 >> 33) % most
    }

    fn job(&mut self) -> Job {
        let [length, width] = [0; 2].map(|_| 1 + self.below(9) as u16);
        let kinds = (0..1 + self.below(4)).map(|_| {
            let [length, width] = [0; 2].map(|_| 1 + self.below(5) as u16);
            kind(length, width, self.below(200) as u32, self.below(4) as u16)
        });
        Job { length, width, kerf: 0, kinds: kinds.collect() }
    }
}

#[test]
fn less_memory_ends_the_same_run_earlier() {
    let mut dice = Dice(1);
    let mut short = 0;
    for _ in 0..400 {
        let job = dice.job();
        let whole = found(&job, AMPLE << 4).expect("weights");
        assert!(!matches!(whole.ended, Ended::Memory(_)), "{job:?}");
        let Err(Error::Memory(words)) = found(&job, 0) else { panic!("no table is needed for {job:?}") };
        for shares in 1..6 {
            let memory = 8 * words * shares;
            let part = found(&job, memory).expect("round 0 has its table");
            match part.ended {
                Ended::Memory(needed) => {
                    short += 1;
                    assert!(
                        part.rounds < whole.rounds && 8 * needed > memory && needed % words == 0,
                        "{job:?}"
                    );
                    let longer = found(&job, 8 * needed).expect("weights");
                    assert!(longer.rounds > part.rounds, "{job:?}");
                }
                _ => assert_eq!(part, whole, "{job:?}"),
            }
        }
    }
    assert!(short > 100, "{short} runs ended for want of memory");
}
