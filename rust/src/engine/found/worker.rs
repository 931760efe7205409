//! Has a thread read files of a queue.

use super::file_pieces::Piece;
use super::file_reading::FileReading;
use super::queue_reading::QueueReading;
use super::stretches::{End, Position, Stretch};
use crate::{Files, Result};

/// The work of a thread, which reads pieces of files and replays them.
pub(super) struct Worker<'q, 'a, F> {
    queue: &'q QueueReading<'a, F>,
    /// The stretch that it has read last; it goes on there, if the next piece is a neighbor.
    own: Option<Stretch>,
}

impl<'q, 'a, F: Files> Worker<'q, 'a, F> {
    /// Makes the work of a thread that reads files of `queue`, and has read nothing yet.
    pub(super) fn new(queue: &'q QueueReading<'a, F>) -> Worker<'q, 'a, F> {
        Worker { queue, own: None }
    }

    /// Reads pieces of one file after another until nothing is left to read, and adds what it has read to the stretches of the
    /// queue.
    pub(super) fn run(mut self) {
        let mut room = Vec::new();
        let stretches = &self.queue.stretches;
        while let Some(file) = self.queue.take_next_file()
            && !stretches.ends_before(file)
        {
            while self.read_piece(file, &mut room) && !stretches.ends_before(file) {}
        }
        if let Some(own) = self.own {
            stretches.add(own);
        }
    }

    /// Reads the next piece of the file at position `file` into `room`, and replays it. Returns whether another piece of the file
    /// may follow. If the reading of the queue ends there, that is noted with the stretches.
    fn read_piece(&mut self, file: usize, room: &mut Vec<u8>) -> bool {
        let reading = &self.queue.files[file];
        let (number, piece) = reading.read_next_piece(room);
        let from = Position {
            file,
            piece: number,
        };
        let replayed = match piece {
            Ok(None) => return false,
            Ok(Some(piece)) => self.replay_piece(reading, from, piece),
            Err(e) => Err(e),
        };
        let end = match replayed {
            Ok(None) => return true,
            Ok(Some(rest)) => End::Rest(rest),
            Err(e) => End::Refused(e),
        };
        reading.stop();
        self.queue.stretches.note_end_at(from, end);
        false
    }

    /// Replays the piece at the position `from`. If a batch of it can't be read, in the last file of the queue, it returns all
    /// bytes of the file from there on; else `None`.
    ///
    /// # Errors
    ///
    /// Those of [`FileReading::replay_piece`]; `Memory`. What this thread has read of the stretch is lost then.
    fn replay_piece(
        &mut self,
        reading: &FileReading<'_, F>,
        from: Position,
        piece: Piece<'_>,
    ) -> Result<Option<Vec<u8>>> {
        let own = self.take_stretch_before(from)?;
        let (reader, rest) = reading.replay_piece(own.reader, piece)?;
        let to = rest.is_none().then(|| from.next_position(piece.is_last));
        self.own = Some(Stretch {
            from: own.from,
            to,
            reader,
        });
        Ok(rest)
    }

    /// Takes out the stretch that this thread has read, if the piece at a position comes next behind it. Else it adds that
    /// stretch to the others, and returns an empty one, which begins with the piece.
    ///
    /// # Errors
    ///
    /// `Memory`.
    fn take_stretch_before(&mut self, piece: Position) -> Result<Stretch> {
        match self.own.take() {
            Some(own) if own.to == Some(piece) => return Ok(own),
            Some(own) => self.queue.stretches.add(own),
            None => {}
        }
        Stretch::new(piece)
    }
}
