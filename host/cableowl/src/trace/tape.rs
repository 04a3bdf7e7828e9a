//! The records of calls in a borrowed buffer, used by a recorded voice and a recorded player.

use std::ops::Range;

use super::{
    Block, FrameNumbers, LanedBlock, Lesson, MAX_TRACED_FRAMES, Record, ShortSound, TraceVersion,
};
use crate::{BlockLanes, Processed, Refusal, Settings, Signals, StaticSound};

/// A trace in a borrowed buffer, up to the first call that did not fit.
///
/// In version 2 a block may be joined to the one before it. The block that can still grow is `open`: it
/// is not in the buffer yet, but its bytes are kept free.
#[derive(Debug)]
pub struct Tape<'a> {
    version: TraceVersion,
    buffer: &'a mut [u8],
    held: usize,
    open: Option<Block>,
    /// The last open block that was written, and its bytes. While nothing changes, the next one is the same, and
    /// copying the bytes takes less time than writing the block.
    written: Option<(Block, [u8; Block::BYTES])>,
    ended: Option<Refusal>,
    blocks: u64,
    /// Space for the lanes of a record.
    lanes: Vec<u8>,
}

impl<'a> Tape<'a> {
    pub fn new(buffer: &'a mut [u8], version: TraceVersion) -> Self {
        let lanes = match version {
            TraceVersion::First => 0,
            TraceVersion::Second => MAX_TRACED_FRAMES * FrameNumbers::BYTES,
        };
        Self {
            version,
            buffer,
            held: 0,
            open: None,
            written: None,
            ended: None,
            blocks: 0,
            lanes: vec![0; lanes],
        }
    }

    pub fn version(&self) -> TraceVersion {
        self.version
    }

    /// Records a creation, accepted or refused.
    pub fn created(&mut self, settings: Settings, lesson: &Lesson) {
        let record = match self.version {
            TraceVersion::First => {
                let sound = ShortSound::new(lesson.samples());
                sound.map(|sound| Record::Creation { settings, sound })
            }
            TraceVersion::Second => {
                let sound = lesson.id();
                Ok(Record::GivenCreation { settings, sound })
            }
        };
        self.keep(record);
    }

    /// Writes a record. The first one that is refused ends the trace.
    pub fn keep(&mut self, record: Result<Record<'_>, Refusal>) {
        if self.ended.is_some() {
            return;
        }
        let kept = record.and_then(|record| {
            self.close()?;
            self.write(&record)
        });
        self.ended = kept.err();
    }

    /// Records a block with these lanes, as the voice answered it. If it does not fit, nothing of it is
    /// written, and the trace ends.
    pub fn played(
        &mut self,
        lanes: BlockLanes<'_>,
        time_step: f64,
        signals: Signals,
        voice: Option<&StaticSound>,
        answer: Result<Processed, Refusal>,
    ) {
        if self.ended.is_some() {
            return;
        }
        let before = (self.held, self.open);
        let kept = match (self.version, answer) {
            // A recorded block has an output of its own.
            (_, Err(Refusal::Block)) => Err(Refusal::Record),
            (TraceVersion::First, _) => {
                let block = lanes.block(time_step, signals);
                block.and_then(|block| self.write(&Record::Block(block)))
            }
            (TraceVersion::Second, Err(refusal)) => {
                self.refused(lanes, time_step, signals, refusal)
            }
            (TraceVersion::Second, Ok(counts)) => {
                let stopped = voice.is_some_and(|voice| ran_off(voice, counts));
                self.parts(lanes, time_step, signals, stopped)
            }
        };
        if let Err(refusal) = kept {
            (self.held, self.open) = before;
            self.ended = Some(refusal);
        }
    }

    /// Records an accepted block. The steps that are counted after the end of the sound depend on where
    /// the block ends, so nothing is joined to a block in which the voice ran off its sound.
    fn parts(
        &mut self,
        mut lanes: BlockLanes<'_>,
        time_step: f64,
        signals: Signals,
        stopped: bool,
    ) -> Result<(), Refusal> {
        for (part, signals) in parts(lanes.count(), signals) {
            let part = lanes.part(part);
            match part.block(time_step, signals) {
                Ok(block) => self.join(block)?,
                Err(_) => self.laned(part, time_step, signals)?,
            }
        }
        if stopped { self.close() } else { Ok(()) }
    }

    /// Records a refused block: up to 1,024 of its frames, such that they are refused too.
    fn refused(
        &mut self,
        mut lanes: BlockLanes<'_>,
        time_step: f64,
        signals: Signals,
        refusal: Refusal,
    ) -> Result<(), Refusal> {
        let bad = match refusal {
            Refusal::Lane { frame, .. } | Refusal::Advance { frame } => frame,
            _ => 0,
        };
        let from = bad - bad % MAX_TRACED_FRAMES;
        let to = lanes.count().min(from + MAX_TRACED_FRAMES);
        let part = lanes.part(from..to);
        self.close()?;
        match part.block(time_step, signals) {
            Ok(block) => self.write(&Record::Block(block)),
            Err(_) => self.laned(part, time_step, signals),
        }
    }

    /// Joins a block with constant lanes to the open one, or opens it.
    fn join(&mut self, block: Block) -> Result<(), Refusal> {
        if let Some(open) = &mut self.open
            && open.joins(&block)
        {
            open.frames += block.frames;
            return Ok(());
        }
        self.close()?;
        if self.room() < Block::BYTES {
            return Err(Refusal::Room);
        }
        self.open = Some(block);
        Ok(())
    }

    /// Writes a block whose lanes change.
    fn laned(
        &mut self,
        lanes: BlockLanes<'_>,
        time_step: f64,
        signals: Signals,
    ) -> Result<(), Refusal> {
        self.close()?;
        let borrowed = lanes.into_ffi();
        let frames = borrowed.rate.len();
        let gains = [
            borrowed.fade,
            borrowed.volume,
            borrowed.left,
            borrowed.right,
        ];
        if gains.iter().any(|lane| lane.len() != frames) {
            return Err(Refusal::Record);
        }
        let (rooms, _) = self.lanes.as_chunks_mut();
        for (frame, room) in rooms.iter_mut().enumerate().take(frames) {
            let [fade, volume, left, right] = gains.map(|lane| lane[frame]);
            let rate = borrowed.rate[frame];
            let numbers = FrameNumbers {
                fade,
                volume,
                left,
                right,
                rate,
            };
            *room = numbers.to_bytes();
        }
        let lanes = &self.lanes[..frames * FrameNumbers::BYTES];
        let block = LanedBlock::new(lanes, time_step).with_signals(signals);
        let record = Record::LanedBlock(block);
        self.held = self.version.write(&record, self.buffer, self.held)?;
        Ok(())
    }

    /// Writes the open block, so that no other is joined to it.
    fn close(&mut self) -> Result<(), Refusal> {
        let Some(block) = self.open.take() else {
            return Ok(());
        };
        let place = self.held..self.held + Block::BYTES;
        if let Some((written, bytes)) = &self.written
            && written.is(&block)
            && let Some(room) = self.buffer.get_mut(place.clone())
        {
            room.copy_from_slice(bytes);
            self.held = place.end;
            return Ok(());
        }
        self.write(&Record::Block(block))?;
        let bytes = self
            .buffer
            .get(place)
            .and_then(|bytes| bytes.try_into().ok());
        self.written = bytes.map(|bytes| (block, bytes));
        Ok(())
    }

    fn write(&mut self, record: &Record<'_>) -> Result<(), Refusal> {
        self.held = self.version.write(record, self.buffer, self.held)?;
        Ok(())
    }

    /// Whether it contains every record so far, or why not.
    pub fn recorded(&self) -> Result<(), Refusal> {
        self.ended.map_or(Ok(()), Err)
    }

    /// The number of the next block, counted from 1.
    pub fn next_block(&mut self) -> u64 {
        self.blocks = self.blocks.saturating_add(1);
        self.blocks
    }

    pub fn bytes(&mut self) -> &[u8] {
        // Never refused: its bytes were kept free.
        let _ = self.close();
        self.buffer.get(..self.held).unwrap_or_default()
    }

    /// The free bytes in the buffer.
    pub fn room(&self) -> usize {
        let open = if self.open.is_some() { Block::BYTES } else { 0 };
        self.buffer.len().saturating_sub(self.held + open)
    }

    /// Empties the buffer; the same trace continues.
    pub fn clear(&mut self) {
        (self.held, self.open) = (0, None);
    }
}

/// The parts of a block that are records, each with its signals: the first part gets the block's. A block
/// without frames has one part.
pub fn parts(frames: usize, signals: Signals) -> impl Iterator<Item = (Range<usize>, Signals)> {
    let starts = (0..frames.max(1)).step_by(MAX_TRACED_FRAMES);
    starts.map(move |from| {
        let signals = if from == 0 { signals } else { Signals::new() };
        (from..frames.min(from + MAX_TRACED_FRAMES), signals)
    })
}

/// Whether the voice ran off its sound in the block with these counts. Without a step the block was
/// silent, or its signals stopped the voice.
pub fn ran_off(voice: &StaticSound, counts: Processed) -> bool {
    counts.steps > 0 && voice.finished()
}
