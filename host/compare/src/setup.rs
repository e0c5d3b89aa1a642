//! Holds a board with everything it is lent, twice: once for the library and once for the model.
//! A call is made to both, and all that it may have changed is compared.

use std::fmt::Write;

use crate::answer::Answer;
use crate::faults::{has_long_swallowed, is_damaged, Damage, Faults, Wrong};
use crate::ffi::{
    self, Carry, Frame, LineBytes, Numbers, Places, Pool, Registers, ResultBytes, FRAME_SIZE,
    PLACES, PLACE_BYTES, PLACE_SIZE, SENT_SIZE,
};
use crate::generate::{damage_places, rewrite_places, spoil_board, Board, Incoming};
use crate::guarded::Guarded;
use crate::joining;
use crate::layout::{self, numbers_in, Entry, Held, TableKind};
use crate::random::Random;
use crate::tally::{By, Case, Tally};
use crate::times::{any_due, count_old, count_start, is_due, Call, Clock, Pasts};
use model::{Reception, Unfinished, MOST_SENT};

/// The functions of the board's half that handle something, and the line splitter's; the library's,
/// where nothing else is said. The comparison is made with any that are handed in, so that it can be
/// shown to find a difference that was planted.
pub trait Handler {
    /// Handles a frame that comes at this tick, for this board. What comes of it is also in the room
    /// that is lent for that, as it is for a whole datagram.
    fn handle_frame(&self, board: &Board, lent: &mut Lent, tick: u16, frame: &Incoming) -> Numbers {
        lent.frame(board, tick, frame)
    }

    /// Handles a tick that comes alone.
    fn handle_tick(&self, places: &mut Places, tick: u16, result: &mut ResultBytes) -> Numbers {
        ffi::handle_tick(places, tick, result);
        numbers_in(result)
    }

    /// Handles a datagram that is handed over whole, for this board.
    fn handle_datagram(&self, board: &Board, lent: &mut Lent, datagram: &[u8]) -> Numbers {
        lent.datagram(board, datagram)
    }

    /// Reads a chunk of lines from an index on, and gives the index up to which it was read.
    fn next_line(
        &self,
        chunk: &[u8],
        from: usize,
        carry: &mut Carry,
        line: &mut LineBytes,
    ) -> usize {
        ffi::next_line(chunk, from, carry, line)
    }

    /// Takes the end of the input.
    fn last_line(&self, carry: &mut Carry, line: &mut LineBytes) {
        ffi::last_line(carry, line);
    }
}

/// What the library is lent.
#[derive(Clone, Debug)]
pub struct Lent {
    pub(crate) table: Guarded,
    pub(crate) flash: Guarded,
    pub(crate) memory: Guarded,
    pub(crate) registers: Guarded,
    pub(crate) places: Guarded,
    pub(crate) pool: Guarded,
    pub(crate) reply: Guarded,
    frames: Guarded,
    pub(crate) result: Guarded,
}

/// What the model is lent.
#[derive(Clone, Debug)]
struct Model {
    flash: Vec<u8>,
    memory: Vec<u8>,
    lock: model::Lock,
    reception: Reception,
    reply: Vec<u8>,
    frames: [model::Frame; MOST_SENT],
}

/// How things were before the call, as far as the library may change them.
#[derive(Clone, Debug)]
struct Before {
    memory: Vec<u8>,
    registers: Registers,
    places: Places,
    pool: Pool,
}

impl Lent {
    /// What a board with this flash is lent for whole datagrams alone; memory, registers, reply
    /// buffer and room for the result are still to be set.
    pub(crate) fn for_datagrams(board: &Board, flash: &[u8]) -> Self {
        let [memory, registers, places, pool, reply, frames, result] =
            [(); 7].map(|()| Guarded::new(&[]));
        Self {
            table: Guarded::new(board.table()),
            flash: Guarded::new(flash),
            memory,
            registers,
            places,
            pool,
            reply,
            frames,
            result,
        }
    }

    /// Puts any bytes into the room for the result: what it holds before a call plays no part, and
    /// a byte that the call does not write is found.
    pub(crate) fn any_result(&mut self, random: &mut Random) {
        let mut any: ResultBytes = [0; ffi::RESULT_SIZE];
        random.fill(&mut any);
        self.result.set(&any);
    }

    /// Makes the call for a frame.
    fn frame(&mut self, board: &Board, tick: u16, frame: &Incoming) -> Numbers {
        ffi::handle_frame(
            board.alias,
            board.write_lengths,
            self.table.bytes(),
            self.flash.bytes(),
            self.memory.bytes_mut(),
            self.registers.array_mut(),
            self.pool.array_mut(),
            self.places.array_mut(),
            tick,
            frame.header,
            &frame.data,
            self.reply.bytes_mut(),
            self.frames.array_mut(),
            self.result.array_mut(),
        );
        numbers_in(self.result.array())
    }

    /// Makes the call for a whole datagram.
    fn datagram(&mut self, board: &Board, datagram: &[u8]) -> Numbers {
        ffi::handle_datagram(
            board.alias,
            board.write_lengths,
            self.table.bytes(),
            self.flash.bytes(),
            self.memory.bytes_mut(),
            self.registers.array_mut(),
            datagram,
            self.reply.bytes_mut(),
            self.result.array_mut(),
        );
        numbers_in(self.result.array())
    }

    /// Whether all guards are as they were.
    pub(crate) fn is_intact(&self) -> bool {
        let lent = [
            &self.table,
            &self.flash,
            &self.memory,
            &self.registers,
            &self.places,
            &self.pool,
            &self.reply,
            &self.frames,
            &self.result,
        ];
        lent.iter().all(|lent| lent.is_intact())
    }
}

impl Model {
    /// Makes the call for a frame: the answer, and the number of frames to be sent.
    fn frame(&mut self, board: &Board, time: u64, frame: &Incoming) -> (Answer, usize) {
        let answer = model::handle_frame(
            &board.for_model(),
            &self.flash,
            &mut self.memory,
            &mut self.lock,
            &mut self.reception,
            time,
            frame.header,
            &frame.data,
            &mut self.reply,
        );
        let count = model::frames_to_send(
            board.alias,
            frame.header,
            answer,
            &self.reply,
            &mut self.frames,
        );
        (Answer::from(answer), count)
    }

    /// Makes the call for a whole datagram.
    fn datagram(&mut self, board: &Board, datagram: &[u8]) -> Answer {
        Answer::from(model::handle_datagram(
            &board.for_model(),
            &self.flash,
            &mut self.memory,
            &mut self.lock,
            datagram,
            &mut self.reply,
        ))
    }

    /// Makes the call for a lone tick.
    fn tick(&mut self, time: u64) -> Answer {
        match model::handle_time(&mut self.reception, time) {
            Ok(()) => Answer::Nothing,
            Err(error) => Answer::from(error),
        }
    }
}

/// A board, lent twice, with the time that both are told: the model all of it, and the library its
/// last 16 bits.
#[derive(Clone, Debug)]
pub struct Setup {
    board: Board,
    table_kind: TableKind,
    faults: Faults,
    library: Lent,
    model: Model,
    before: Before,
    clock: Clock,
    /// `None` where the places are no call's.
    pasts: Option<Pasts>,
    /// Whether a world begins with these places.
    starting: bool,
    /// Of what the room for a result holds before a call.
    any: Random,
}

/// A reception state of the library as one of the model at this time: what the places that are held
/// are held for. A damaged state goes to the model in the order of the places too: twins then need
/// not stand side by side.
///
/// # Panics
///
/// Never: there are as many places on either side.
#[must_use]
pub fn for_model(places: &Places, pool: &Pool, time: u64) -> Reception {
    let entries: Vec<Unfinished> = layout::unfinished(places, pool)
        .map(|entry| entry.for_model(time))
        .collect();
    Reception::from_unfinished(&entries).expect("eight places")
}

/// What is unfinished in an order that does not depend on places.
pub(crate) fn in_order<'p>(entries: impl Iterator<Item = Entry<'p>>) -> Vec<Entry<'p>> {
    let mut entries: Vec<_> = entries.collect();
    entries.sort_unstable();
    entries
}

impl Setup {
    /// A board with random contents and these places, and a clock.
    pub fn new(random: &mut Random, board: Board, places: Places, clock: Clock) -> Self {
        let flash = random.bytes(board.flash_len);
        let memory = random.bytes(board.memory_len);
        let mut pool = [0; ffi::POOL_BYTES];
        random.fill(&mut pool);
        let mut lock = [0; 6];
        if random.once_in(4) {
            random.fill(&mut lock);
        }
        let model = Model {
            reception: for_model(&places, &pool, clock.time()),
            lock,
            reply: Vec::new(),
            frames: [model::Frame::EMPTY; MOST_SENT],
            flash,
            memory,
        };
        Self {
            library: Lent {
                table: Guarded::new(board.table()),
                flash: Guarded::new(&model.flash),
                memory: Guarded::new(&model.memory),
                registers: Guarded::new(&lock),
                places: Guarded::new(&places),
                pool: Guarded::new(&pool),
                reply: Guarded::new(&[]),
                frames: Guarded::new(&[]),
                result: Guarded::new(&[]),
            },
            before: Before {
                memory: model.memory.clone(),
                registers: lock,
                places,
                pool,
            },
            model,
            table_kind: TableKind::of(board.table()),
            faults: Faults::of(&board),
            board,
            clock,
            pasts: Some(Pasts::default()),
            starting: false,
            any: Random::new(random.number()),
        }
    }

    /// Lets ticks pass before the next call, at most so many. Places that are no call's may be as
    /// old as a tick can tell: none passes before a call is made on them.
    pub fn pass(&mut self, random: &mut Random, most: u64) {
        if self.pasts.is_some() {
            self.clock.pass(random, self.library.places.array(), most);
        }
    }

    /// Begins a world with places of any age, and with this time.
    pub fn start_with(&mut self, places: &Places, clock: Clock) {
        self.set_places(places, clock);
        self.starting = true;
    }

    /// Puts other places, and another time.
    pub fn set_places(&mut self, places: &Places, clock: Clock) {
        *self.library.places.array_mut() = *places;
        self.model.reception = for_model(places, self.library.pool.array(), clock.time());
        self.clock = clock;
        (self.pasts, self.starting) = (None, false);
    }

    /// Puts other places and another time, at which what these places are held for is as a call
    /// leaves it.
    pub fn begin_anew(&mut self, places: &Places, clock: Clock) {
        self.set_places(places, clock);
        self.pasts = Some(Pasts::default());
    }

    /// The board.
    #[must_use]
    pub const fn board(&self) -> &Board {
        &self.board
    }

    /// The library's flash.
    #[must_use]
    pub fn flash(&self) -> &[u8] {
        self.library.flash.bytes()
    }

    /// The library's memory.
    #[must_use]
    pub fn memory(&self) -> &[u8] {
        self.library.memory.bytes()
    }

    /// The library's registers, which are the lock memory.
    #[must_use]
    pub fn lock(&self) -> &Registers {
        self.library.registers.array()
    }

    /// The library's reply buffer.
    #[must_use]
    pub fn reply(&self) -> &[u8] {
        self.library.reply.bytes()
    }

    /// The first so many frames of those that the library has made in the last call for a frame.
    pub fn sent(&self, count: usize) -> impl Iterator<Item = Frame> + '_ {
        let (frames, _) = self.library.frames.bytes().as_chunks();
        frames.iter().take(count).map(layout::frame_in)
    }

    /// The same with its board spoiled so many times.
    #[must_use]
    pub fn with_spoilt_board(mut self, random: &mut Random, times: usize) -> Self {
        for _ in 0..times {
            spoil_board(random, &mut self.board);
        }
        self.library.table.set(self.board.table());
        self.table_kind = TableKind::of(self.board.table());
        self.faults = Faults::of(&self.board);
        if self.board.flash_len != self.model.flash.len() {
            self.model.flash.resize(self.board.flash_len, 0x5A);
            self.library.flash.set(&self.model.flash);
        }
        if self.board.memory_len != self.model.memory.len() {
            self.model.memory.resize(self.board.memory_len, 0x5A);
            self.library.memory.set(&self.model.memory);
            self.before.memory.clone_from(&self.model.memory);
        }
        self
    }

    /// The same with its reception state damaged.
    #[must_use]
    pub fn with_damaged_state(mut self, random: &mut Random) -> Self {
        let mut places = *self.library.places.array();
        damage_places(random, &mut places);
        self.set_places(&places, self.clock);
        self
    }

    /// Writes other bytes into the places, which are held for the same by them.
    pub fn rewrite_places(&mut self, random: &mut Random) {
        rewrite_places(random, self.library.places.array_mut());
    }

    /// The datagram that this frame finishes if it finishes one.
    fn finished(&self, frame: &Incoming) -> Option<Vec<u8>> {
        match frame.header >> 24 {
            0x1A => Some(frame.data.clone()),
            0x1D => {
                let source = frame.header & 0xFFF;
                layout::unfinished(self.library.places.array(), self.library.pool.bytes())
                    .find(|entry| u32::from(entry.source) == source && !entry.swallowing)
                    .map(|entry| [entry.bytes, &frame.data].concat())
            }
            _ => None,
        }
    }

    /// Notes how things are, and lends both sides a reply buffer with these bytes, and the library
    /// room for the result.
    fn begin(&mut self, reply: &[u8]) {
        self.library.any_result(&mut self.any);
        self.before.registers = *self.library.registers.array();
        self.before.places = *self.library.places.array();
        self.before.pool = *self.library.pool.array();
        self.library.reply.set(reply);
        self.model.reply.clear();
        self.model.reply.extend_from_slice(reply);
    }

    /// Makes the call for a frame to both, with a reply buffer and room for frames that hold these
    /// bytes, and gives the answer that both agree on.
    pub fn frame(
        &mut self,
        handler: &impl Handler,
        frame: &Incoming,
        reply: &[u8],
        room: &[u8; SENT_SIZE],
        tally: &mut Tally,
    ) -> Result<Answer, String> {
        let finished = self.finished(frame);
        self.begin(reply);
        self.library.frames.set(room);
        let (time, tick) = (self.clock.time(), self.clock.tick());
        let numbers = handler.handle_frame(&self.board, &mut self.library, tick, frame);
        let (model_answer, model_count) = self.model.frame(&self.board, time, frame);
        let answer = Answer::from(numbers);
        let done = Done {
            by: By::Frames,
            frame: Some(frame),
            answer,
            model_answer,
            count: usize::from(numbers.frame_count),
            model_count,
            finished: finished.as_deref(),
            reply,
            room,
        };
        let compared = self.compare(&done, tally);
        let compared = compared.map(|()| answer).map_err(|what| {
            let mut report = format!("call for a frame: {what}\n");
            let _ = writeln!(report, "time              {time}, tick {tick}");
            let _ = writeln!(report, "header            {:08X}", frame.header);
            let _ = writeln!(report, "data              {}", hex(&frame.data));
            self.describe(&mut report, &done);
            report
        });
        self.clock
            .brought(matches!(answer, Answer::CallError { .. }));
        compared
    }

    /// Brings a lone tick to both, and gives the answer that both agree on. It is lent the places
    /// and asks for nothing else of the board.
    pub fn tick(&mut self, handler: &impl Handler, tally: &mut Tally) -> Result<Answer, String> {
        self.before.places = *self.library.places.array();
        let (time, tick) = (self.clock.time(), self.clock.tick());
        self.library.any_result(&mut self.any);
        let Lent { places, result, .. } = &mut self.library;
        let numbers = handler.handle_tick(places.array_mut(), tick, result.array_mut());
        let answer = Answer::from(numbers);
        let model_answer = self.model.tick(time);
        let compared = self.compare_tick(answer, model_answer, numbers.frame_count, tally);
        let compared = compared.map(|()| answer).map_err(|what| {
            let mut report = format!("lone tick: {what}\n");
            let _ = writeln!(report, "time              {time}, tick {tick}");
            let _ = writeln!(report, "places before     {}", hex(&self.before.places));
            let _ = writeln!(report, "library: numbers  {numbers:?}");
            let _ = writeln!(report, "model:   answer   {}", in_words(model_answer));
            self.describe_unfinished(&mut report);
            report
        });
        self.clock
            .brought(matches!(answer, Answer::CallError { .. }));
        compared
    }

    /// Compares everything after a lone tick.
    fn compare_tick(
        &mut self,
        answer: Answer,
        model_answer: Answer,
        frame_count: u8,
        tally: &mut Tally,
    ) -> Result<(), &'static str> {
        same(answer == model_answer, "the answers differ")?;
        same(frame_count == 0, "there are frames to be sent")?;
        self.compare_unfinished()?;
        let Self {
            library, before, ..
        } = self;
        same(
            library.places.is_intact() && library.result.is_intact(),
            "a byte outside what was lent is changed",
        )?;
        let due = any_due(&before.places, self.clock.tick());
        let damaged = is_damaged(&before.places);
        match answer {
            Answer::CallError {
                number: 7,
                position: None,
            } => {
                same(damaged, "a state that is not damaged is refused")?;
                same(
                    library.places.bytes() == before.places,
                    "a refused call changed the reception state",
                )?;
                tally.count(Case::TickB7);
                tally.count_if(due, Case::TickB7Due);
                tally.damaged(&Damage::of(&before.places), false);
            }
            Answer::Nothing => {
                same(!damaged, "a damaged state is not refused")?;
                // The pool is not lent.
                let pool = library.pool.array();
                compare_places(
                    (&before.places, pool),
                    (library.places.array(), pool),
                    self.clock.tick(),
                    Changes::Nothing,
                    |case| tally.count(case),
                )?;
                tally.count(Case::Tick);
                let short = (1..72).contains(&library.reply.bytes().len());
                for (is, case) in [
                    (self.faults.refusal().is_some(), Case::TickBadBoard),
                    (short, Case::TickShort),
                    (has_long_swallowed(&before.places), Case::TickLongSwallowed),
                ] {
                    tally.count_if(is, case);
                }
                self.count_call(answer, None, tally)?;
            }
            _ => return Err("a lone tick has no such answer"),
        }
        Ok(())
    }

    /// Makes the call for a whole datagram to both, and gives the answer that both agree on.
    pub fn datagram(
        &mut self,
        handler: &impl Handler,
        datagram: &[u8],
        reply: &[u8],
        tally: &mut Tally,
    ) -> Result<Answer, String> {
        self.begin(reply);
        let numbers = handler.handle_datagram(&self.board, &mut self.library, datagram);
        let answer = Answer::from(numbers);
        let done = Done {
            by: By::Whole,
            frame: None,
            answer,
            model_answer: self.model.datagram(&self.board, datagram),
            count: usize::from(numbers.frame_count),
            model_count: 0,
            finished: Some(datagram),
            reply,
            room: &NO_ROOM,
        };
        self.compare(&done, tally).map(|()| answer).map_err(|what| {
            let mut report = format!("call for a whole datagram: {what}\n");
            let _ = writeln!(report, "datagram          {}", hex(datagram));
            self.describe(&mut report, &done);
            report
        })
    }

    /// Compares everything after a call.
    fn compare(&mut self, done: &Done, tally: &mut Tally) -> Result<(), &'static str> {
        self.compare_with_model(done)?;
        if done.by == By::Frames {
            self.compare_frames(done)?;
        }
        let Self {
            library, before, ..
        } = self;
        if matches!(done.answer, Answer::CallError { .. }) || done.by == By::Whole {
            same(
                library.places.bytes() == before.places && library.pool.bytes() == before.pool,
                "a refused call changed the reception state",
            )?;
        } else {
            compare_places(
                (&before.places, &before.pool),
                (library.places.array(), library.pool.array()),
                self.clock.tick(),
                Changes::by(done.answer),
                |case| tally.count(case),
            )?;
        }
        compare_memory(done.answer, before, library)?;
        self.compare_untouched(done)?;
        self.compare_refusal(done)?;
        self.count(done, tally)
    }

    /// Compares with the model what a call of either sort may change.
    fn compare_with_model(&self, done: &Done) -> Result<(), &'static str> {
        let Self { library, model, .. } = self;
        same(done.answer == done.model_answer, "the answers differ")?;
        same(
            library.reply.bytes() == model.reply,
            "the reply buffers differ",
        )?;
        same(
            library.memory.bytes() == model.memory,
            "the memories differ",
        )?;
        same(library.registers.bytes() == model.lock, "the locks differ")?;
        same(
            done.count == done.model_count,
            "the numbers of frames differ",
        )
    }

    /// Compares what only the call for a frame has: the frames to be sent, whose number follows
    /// from the answer too, and the unfinished datagrams.
    fn compare_frames(&self, done: &Done) -> Result<(), &'static str> {
        let Self { library, model, .. } = self;
        same(
            done.count == done.answer.frames(),
            "the answer has another number of frames",
        )?;
        same(
            library.frames.bytes() == done.expected_frames(model),
            "the frames differ, or the room behind them is changed",
        )?;
        self.compare_unfinished()
    }

    /// Compares the unfinished datagrams. Of the model's times the library has the last 16 bits.
    fn compare_unfinished(&self) -> Result<(), &'static str> {
        let Self { library, model, .. } = self;
        same(
            in_order(layout::unfinished(
                library.places.array(),
                library.pool.bytes(),
            )) == in_order(model.reception.unfinished().map(Entry::from)),
            "the unfinished datagrams differ",
        )
    }

    /// Tests of the library alone what document 01 says is untouched, whatever the model does.
    fn compare_untouched(&self, done: &Done) -> Result<(), &'static str> {
        let Self {
            board,
            library,
            model,
            before,
            ..
        } = self;
        let written = match done.answer {
            Answer::Replied(length) => length,
            _ => 0,
        };
        same(written <= 72, "the reply is over 72 bytes")?;
        same(
            library.reply.bytes()[written..] == done.reply[written..],
            "the reply buffer is changed past the reply",
        )?;
        if !matches!(done.answer, Answer::Replied(8)) {
            same(
                library.registers.bytes() == before.registers,
                "the lock is changed without 0x88",
            )?;
        }
        same(library.flash.bytes() == model.flash, "flash is changed")?;
        same(
            library.table.bytes() == board.table(),
            "the table is changed",
        )?;
        same(
            library.is_intact(),
            "a byte outside what was lent is changed",
        )
    }

    /// Tests of the library alone that a board is refused by its first fault, with the position of
    /// a space and of nothing else, and that one without a fault is not, whatever the model does.
    fn compare_refusal(&self, done: &Done) -> Result<(), &'static str> {
        let answer = done.answer.is_of_description().then_some(done.answer);
        same(
            answer == self.faults.refusal(),
            "the board has another first fault than the answer",
        )
    }

    /// What was wrong in a call. The one for a whole datagram is lent no reception state.
    fn wrong(&self, done: &Done) -> Wrong {
        Wrong {
            faults: self.faults,
            short: done.reply.len() < 72,
            damaged: done.by == By::Frames && is_damaged(&self.before.places),
        }
    }

    /// Counts what was reached of times, and of the rules for a frame, in a call that is not
    /// refused; and tests of the library alone that the rule for the frame is kept.
    fn count_call(
        &mut self,
        answer: Answer,
        frame: Option<&Incoming>,
        tally: &mut Tally,
    ) -> Result<(), &'static str> {
        let call = Call {
            clock: self.clock,
            before: &self.before.places,
            after: self.library.places.array(),
            answer,
            frame,
        };
        match &mut self.pasts {
            Some(pasts) => pasts.count(&call, tally),
            None => {
                count_old(&call, tally);
                if self.starting {
                    count_start(&call, tally);
                }
                // Now they are as a call leaves them.
                (self.pasts, self.starting) = (Some(Pasts::default()), false);
            }
        }
        joining::check(&call, tally)
    }

    /// Counts what was reached.
    fn count(&mut self, done: &Done, tally: &mut Tally) -> Result<(), &'static str> {
        if let Answer::CallError { number, position } = done.answer {
            tally.refused(done.by, number, position, &self.wrong(done));
            let due = done.by == By::Frames && any_due(&self.before.places, self.clock.tick());
            tally.count_if(due && number != 7, Case::RefusedDue);
            tally.count_if(due && number == 7, Case::B7Due);
            if number == 7 {
                tally.damaged(&Damage::of(&self.before.places), true);
            }
        } else {
            tally.table(done.by, self.table_kind);
            if done.by == By::Frames {
                let long = has_long_swallowed(&self.before.places);
                tally.count_if(long, Case::LongSwallowed);
                self.count_call(done.answer, done.frame, tally)?;
            }
        }
        if done.is_last() && done.answer.is_of_datagram() {
            tally.count(Case::Joined);
        }
        if done.by == By::Frames {
            tally.sent(done.count);
        }
        same(
            tally.answer(
                done.by,
                done.answer,
                done.finished,
                self.before.registers,
                self.library.reply.bytes(),
            ),
            "document 01 has no such answer",
        )
    }

    /// Writes down all that went in and all that came out.
    fn describe(&self, report: &mut String, done: &Done) {
        let Self {
            board,
            library,
            model,
            before,
            ..
        } = self;
        let mut line = |name: &str, text: &str| {
            let _ = writeln!(report, "{name:17} {text}");
        };
        line("alias", &format!("{:03X}", board.alias));
        line("write lengths", &format!("{:02X}", board.write_lengths));
        line("table", &hex(board.table()));
        for space in board.spaces() {
            line("space", &format!("{space:X?}"));
        }
        line("flash", &hex(&model.flash));
        line("memory before", &hex(&before.memory));
        line("lock before", &hex(&before.registers));
        line("reply before", &hex(done.reply));
        for index in 0..PLACES {
            line(
                "place before",
                &format!(
                    "{} {}",
                    hex(&layout::place(&before.places, index)),
                    hex(pool_of(&before.pool, index))
                ),
            );
        }
        line("faults", &format!("{:?}", self.faults));
        line("library: answer", &in_words(done.answer));
        line("model:   answer", &in_words(done.model_answer));
        if done.by == By::Frames {
            line("room before", &hex(done.room));
            line("library: count", &done.count.to_string());
            line("model:   count", &done.model_count.to_string());
            line("library: frames", &hex(library.frames.bytes()));
            line("model:   frames", &hex(&done.expected_frames(model)));
        }
        line("library: reply", &hex(library.reply.bytes()));
        line("model:   reply", &hex(&model.reply));
        line("library: memory", &hex(library.memory.bytes()));
        line("model:   memory", &hex(&model.memory));
        line("library: lock", &hex(library.registers.bytes()));
        line("model:   lock", &hex(&model.lock));
        self.describe_unfinished(report);
    }

    /// Writes down what is unfinished afterwards.
    fn describe_unfinished(&self, report: &mut String) {
        let Self { library, model, .. } = self;
        let _ = writeln!(report, "library: places   {}", hex(library.places.bytes()));
        for entry in layout::unfinished(library.places.array(), library.pool.bytes()) {
            let _ = writeln!(report, "library: holds    {entry:X?}");
        }
        for entry in model.reception.unfinished() {
            let _ = writeln!(report, "model:   holds    {entry:X?}");
        }
    }
}

/// What came of a call, and what went into it.
struct Done<'c> {
    by: By,
    /// The frame, if it is the call for one.
    frame: Option<&'c Incoming>,
    answer: Answer,
    model_answer: Answer,
    /// The frames to be sent.
    count: usize,
    model_count: usize,
    finished: Option<&'c [u8]>,
    /// What the reply buffer held before the call.
    reply: &'c [u8],
    /// What the room for frames held before the call.
    room: &'c [u8; SENT_SIZE],
}

/// In the place of a room that is not lent.
const NO_ROOM: [u8; SENT_SIZE] = [0; SENT_SIZE];

impl Done<'_> {
    /// Whether a finished datagram is one of several frames.
    fn is_last(&self) -> bool {
        self.frame.is_some_and(|frame| frame.header >> 24 == 0x1D)
    }

    /// What the room for frames holds after the call: the model's frames, and behind them what was
    /// there.
    fn expected_frames(&self, model: &Model) -> [u8; SENT_SIZE] {
        let mut expected = *self.room;
        let frames = &model.frames[..self.model_count];
        for (room, frame) in expected.chunks_exact_mut(FRAME_SIZE).zip(frames) {
            room.copy_from_slice(&layout::frame_bytes(frame));
        }
        expected
    }
}

/// What is said where something is not the same.
pub(crate) fn same(same: bool, what: &'static str) -> Result<(), &'static str> {
    if same {
        Ok(())
    } else {
        Err(what)
    }
}

/// Memory after a call, by what the library says of it and without the model: outside of the bytes
/// that it says are written, every byte is as it was. What is written is the next call's memory
/// before.
fn compare_memory(answer: Answer, before: &mut Before, library: &Lent) -> Result<(), &'static str> {
    let memory = library.memory.bytes();
    let (start, count) = match answer {
        Answer::Written { start, count } => (start, count),
        _ => (0, 0),
    };
    let end = start.saturating_add(count);
    same(end <= memory.len(), "bytes outside memory are written")?;
    same(
        memory[..start] == before.memory[..start] && memory[end..] == before.memory[end..],
        "memory is changed without a write, or outside what is written",
    )?;
    before.memory[start..end].copy_from_slice(&memory[start..end]);
    Ok(())
}

/// What a call may change of a reception state, beside the places with something due.
#[derive(Clone, Copy, Debug, PartialEq, Eq)]
pub(crate) enum Changes {
    /// Nothing: there is no frame, or it is ignored.
    Nothing,
    /// One place, but not the pool: the frame is refused.
    Place,
    /// One place, and its bytes in the pool.
    PlaceAndPool,
}

impl Changes {
    /// By a frame with this answer.
    const fn by(answer: Answer) -> Self {
        match answer {
            Answer::Ignored => Self::Nothing,
            Answer::TransportRefusal(_) => Self::Place,
            _ => Self::PlaceAndPool,
        }
    }
}

/// The places after a call that brought this tick and is not refused. First every place with
/// something due is free and all zero. Then the frame, if there is one that is not ignored, changes
/// at most one place, and that one has the canonical bytes of what it is held for. Every other place
/// keeps all its bytes, and the pool is as it was but for the frame's own data.
pub(crate) fn compare_places(
    before: (&Places, &Pool),
    after: (&Places, &Pool),
    tick: u16,
    changes: Changes,
    mut count: impl FnMut(Case),
) -> Result<(), &'static str> {
    let mut changed = 0;
    for index in 0..PLACES {
        let old = layout::place(before.0, index);
        let new = layout::place(after.0, index);
        let pools = [before.1, after.1].map(|pool| pool_of(pool, index));
        let (was, is) = (layout::held(old), layout::held(new));
        let stays = was.filter(|&held| !is_due(held, tick));
        let dropped = stays != was;
        same(
            !dropped || is != was,
            "a place with something due is not dropped",
        )?;
        let odd = old != layout::canonical(was);
        if is == stays {
            if dropped {
                same(
                    new == layout::canonical(None),
                    "a place that was dropped is not all zero",
                )?;
            } else {
                same(old == new, "a place that did not change has other bytes")?;
            }
            same(
                pools[0] == pools[1],
                "the pool is changed for a place that did not change",
            )?;
            if odd {
                count(case_of_kept(was, dropped));
            }
            continue;
        }
        changed += 1;
        compare_changed(stays, is, new, tick)?;
        let [start, end] = match changes {
            Changes::PlaceAndPool => data_in_pool(stays, is),
            _ => [0, 0],
        };
        same(
            pools[0][..start] == pools[1][..start] && pools[0][end..] == pools[1][end..],
            "the pool is changed, and not by what the frame puts there",
        )?;
        if odd {
            count(case_of_changed(stays, is));
        }
    }
    same(
        changed <= usize::from(changes != Changes::Nothing),
        "more places changed than the frame may change",
    )
}

/// A place that a frame has changed: its bytes, which are those of what it is held for, and its tick.
/// That is the frame's own where the frame is accepted, and stays where it is refused and the source
/// is being swallowed from now on.
fn compare_changed(
    was: Option<Held>,
    is: Option<Held>,
    new: [u8; PLACE_SIZE],
    tick: u16,
) -> Result<(), &'static str> {
    same(
        new == layout::canonical(is),
        "a place that changed has other bytes than it should",
    )?;
    let Some(is) = is else {
        return Ok(());
    };
    match was {
        None if is.swallowing => Err("a place that was free is swallowed"),
        Some(was) if is.swallowing && !was.swallowing => same(
            is.tick == was.tick,
            "a refused frame has changed the tick of its place",
        ),
        _ => same(
            is.tick == tick,
            "a place that changed has another tick than the call",
        ),
    }
}

/// Where the data of an accepted frame go that has changed a place from the one to the other: from
/// which byte of the place on, and up to which. Of a Last that finishes a datagram it is not known
/// how many there are.
fn data_in_pool(was: Option<Held>, is: Option<Held>) -> [usize; 2] {
    let begun = |held: Option<Held>| held.filter(|held| !held.swallowing);
    let had = begun(was).map(|was| usize::from(was.len));
    match (had, begun(is)) {
        (had, Some(is)) => {
            let end = usize::from(is.len).min(PLACE_BYTES);
            [had.unwrap_or(0).min(end), end]
        }
        (Some(had), None) => [had.min(PLACE_BYTES), PLACE_BYTES.min(had + 8)],
        (None, None) => [0, 0],
    }
}

/// The case of a place with other bytes than the library writes that no frame has changed.
const fn case_of_kept(was: Option<Held>, dropped: bool) -> Case {
    match was {
        Some(_) if dropped => Case::PlaceDropped,
        Some(held) if held.swallowing => Case::SwallowedKept,
        Some(_) => Case::HeldKept,
        None => Case::FreeKept,
    }
}

/// The case of a place with other bytes than the library writes that a frame has changed.
const fn case_of_changed(was: Option<Held>, is: Option<Held>) -> Case {
    let (Some(was), Some(is)) = (was, is) else {
        return match was {
            None => Case::PlaceOpened,
            Some(was) if was.swallowing => Case::SwallowedFreed,
            Some(_) => Case::PlaceFreed,
        };
    };
    match (was.swallowing, is.swallowing) {
        (false, false) => Case::PlaceAppended,
        (false, true) => Case::PlaceBroken,
        (true, true) => Case::PlaceSwallowed,
        (true, false) => Case::PlaceReopened,
    }
}

/// The bytes of the pool for a place.
fn pool_of(pool: &Pool, index: usize) -> &[u8] {
    &pool[PLACE_BYTES * index..][..PLACE_BYTES]
}

/// An answer for a report: codes in hexadecimal digits, the caller's errors and positions in
/// decimal ones.
fn in_words(answer: Answer) -> String {
    match answer {
        Answer::CallError { .. } => format!("{answer:?}"),
        _ => format!("{answer:X?}"),
    }
}

/// Bytes as digits.
#[must_use]
pub fn hex(bytes: &[u8]) -> String {
    let mut digits = format!("({}) ", bytes.len());
    for byte in bytes {
        let _ = write!(digits, "{byte:02X}");
    }
    digits
}
