//! Holds the measuring: short batches of either side by turns, all scenes in several sweeps, and
//! medians, so that what else the machine does falls on all of them alike.

use std::hint::black_box;
use std::time::Instant;

use crate::boards::{Blueprint, LibraryBoard, ModelBoard, ModelResult};
use crate::scenes::{Scene, Swallowed};
use compare::answer::Answer;
use model::FrameAnswer;

/// A multiple of four: the stack stands at each of its four places in a cache line equally often.
const SWEEPS: usize = 12;
const ROUNDS: usize = 61;
const WARM_UP: usize = 5;
/// The calls of a batch: about a tenth of a millisecond.
const BATCH: usize = 2_000;

/// Nanoseconds for one call of each side.
#[derive(Clone, Copy, Debug)]
pub struct Figures {
    /// Of the library.
    pub library: f64,
    /// Of the model.
    pub model: f64,
    /// How many times as long the library takes, in batches that follow one another.
    pub ratio: f64,
}

/// What the model's result says, as what the library's does.
fn answer_of(result: ModelResult) -> Answer {
    Answer::from(result.map(|(answer, _)| answer))
}

/// Something that both sides do.
pub struct Subject<'s> {
    name: String,
    calls_each_time: usize,
    library: Box<dyn FnMut(usize) + 's>,
    model: Box<dyn FnMut(usize) + 's>,
    batches: Vec<Figures>,
}

impl<'s> Subject<'s> {
    /// Something with a name; each side is told how often to do it, and makes so many calls each
    /// time.
    pub fn new(
        name: &str,
        calls_each_time: usize,
        library: impl FnMut(usize) + 's,
        model: impl FnMut(usize) + 's,
    ) -> Self {
        Self {
            name: name.to_owned(),
            calls_each_time,
            library: Box::new(library),
            model: Box::new(model),
            batches: Vec::with_capacity(SWEEPS * ROUNDS),
        }
    }

    /// The frames of a scene, after a test that both sides do the same with them.
    ///
    /// # Panics
    ///
    /// Where they do not: figures of different work are worth nothing.
    #[must_use]
    pub fn of_scene(scene: &'s Scene) -> Self {
        let mut library = LibraryBoard::new(&scene.blueprint);
        let mut model = ModelBoard::new(&scene.blueprint);
        for frame in &scene.frames {
            let name = &scene.name;
            library.frame(frame);
            model.frame(frame);
            let answer = Answer::from(library.numbers());
            let count = usize::from(library.numbers().frame_count);
            assert_eq!(answer, answer_of(model.result()), "{name}");
            assert_eq!(model.result().map(|(_, count)| count), Ok(count), "{name}");
            assert_eq!(library.sent(count), model.sent(count), "{name}");
            assert!(!matches!(answer, Answer::TransportRefusal(_)), "{name}");
            assert_eq!(library.reply(), model.reply(), "{name}");
            assert_eq!(library.memory(), model.memory(), "{name}");
        }
        Self::new(
            &scene.name,
            scene.frames.len(),
            move |times| {
                for _ in 0..times {
                    for frame in &scene.frames {
                        library.frame(black_box(frame));
                    }
                }
            },
            move |times| {
                for _ in 0..times {
                    for frame in &scene.frames {
                        model.frame(black_box(frame));
                    }
                }
            },
        )
    }

    /// Frames that are swallowed, each one tick behind the one before, so that a place is written
    /// with each of them; after a test that both sides swallow them. All tools that are unfinished
    /// on the board are being swallowed and send one frame of each round: none of them grows old.
    ///
    /// # Panics
    ///
    /// Where a side does not swallow them.
    #[must_use]
    pub fn of_swallowed(name: &str, blueprint: &Blueprint, frames: Swallowed) -> Self {
        let mut library = LibraryBoard::new(blueprint);
        let mut model = ModelBoard::new(blueprint);
        let Swallowed {
            breaking,
            swallowed,
        } = frames;
        for frame in &breaking {
            let refused = Answer::TransportRefusal(0x2040);
            library.frame(frame);
            model.frame(frame);
            assert_eq!(Answer::from(library.numbers()), refused, "{name}");
            assert_eq!(answer_of(model.result()), refused, "{name}");
        }
        for frame in &swallowed {
            library.frame(frame);
            model.frame(frame);
            let numbers = library.numbers();
            assert_eq!(Answer::from(numbers), Answer::Nothing, "{name}");
            assert_eq!(model.result(), Ok((FrameAnswer::Nothing, 0)), "{name}");
        }
        assert_eq!(library.swallowed(), blueprint.others.len(), "{name}");
        assert_eq!(model.swallowed(), blueprint.others.len(), "{name}");
        let model_swallowed = swallowed.clone();
        let (mut library_time, mut model_time) = (0u64, 0u64);
        Self::new(
            name,
            swallowed.len(),
            move |times| {
                for _ in 0..times {
                    for frame in &swallowed {
                        library_time += 1;
                        library.frame_at(library_time as u16, black_box(frame));
                    }
                }
            },
            move |times| {
                for _ in 0..times {
                    for frame in &model_swallowed {
                        model_time += 1;
                        model.frame_at(model_time, black_box(frame));
                    }
                }
            },
        )
    }

    /// Lone ticks on a board, after a test that both sides do the same with one: they drop nothing.
    ///
    /// # Panics
    ///
    /// Where they do not.
    #[must_use]
    pub fn of_ticks(name: &str, blueprint: &Blueprint) -> Self {
        let mut library = LibraryBoard::new(blueprint);
        let mut model = ModelBoard::new(blueprint);
        library.tick();
        model.tick();
        assert_eq!(Answer::from(library.numbers()), Answer::Nothing, "{name}");
        assert_eq!(answer_of(model.result()), Answer::Nothing, "{name}");
        assert_eq!(library.unfinished(), blueprint.others.len(), "{name}");
        assert_eq!(model.unfinished(), blueprint.others.len(), "{name}");
        Self::new(
            name,
            1,
            move |times| {
                for _ in 0..times {
                    library.tick();
                }
            },
            move |times| {
                for _ in 0..times {
                    model.tick();
                }
            },
        )
    }

    /// Its name.
    #[must_use]
    pub fn name(&self) -> &str {
        &self.name
    }

    fn sweep(&mut self) {
        let times = BATCH.div_ceil(self.calls_each_time);
        let calls = (times * self.calls_each_time) as f64;
        for round in 0..WARM_UP + ROUNDS {
            let start = Instant::now();
            (self.library)(times);
            let middle = Instant::now();
            (self.model)(times);
            let end = Instant::now();
            if round >= WARM_UP {
                let library = (middle - start).as_nanos() as f64 / calls;
                let model = (end - middle).as_nanos() as f64 / calls;
                self.batches.push(Figures {
                    library,
                    model,
                    ratio: library / model,
                });
            }
        }
    }

    /// The medians of all batches.
    #[must_use]
    pub fn figures(&self) -> Figures {
        let median = |of: fn(&Figures) -> f64| {
            let mut all: Vec<f64> = self.batches.iter().map(of).collect();
            all.sort_by(f64::total_cmp);
            all[all.len() / 2]
        };
        Figures {
            library: median(|figures| figures.library),
            model: median(|figures| figures.model),
            ratio: median(|figures| figures.ratio),
        }
    }
}

/// Measures all of them in sweeps, so that a slow minute is not one subject's alone. Arguments and
/// locals lie on the stack, and where that stands in a cache line makes a difference: each sweep
/// has it elsewhere.
pub fn measure(groups: &mut [Vec<Subject>]) {
    let places = [deeper::<2>, deeper::<4>, deeper::<6>, deeper::<8>];
    for sweep in 0..SWEEPS {
        places[sweep % places.len()](&mut || {
            for subject in groups.iter_mut().flatten() {
                subject.sweep();
            }
        });
    }
}

/// Does something with the stack so many words deeper.
#[inline(never)]
fn deeper<const WORDS: usize>(act: &mut dyn FnMut()) {
    let mut room = [0u64; WORDS];
    black_box(&mut room);
    act();
    black_box(&mut room);
}
