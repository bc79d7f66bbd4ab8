//! The index from minimum keys to chunks: its rows, what the shape asks of them, and the rebalance's step that makes them.
use crate::*;

/// A row of the index: a chunk and its minimum key.
#[derive(Clone, Copy, PartialEq, Eq, Debug, Default)]
pub struct IndexRow {
    pub min: u64,
    pub chunk: ChunkNo,
}

/// The rows in use, in order; 0 past them.
#[derive(Clone, Copy, PartialEq, Eq, Debug, Default)]
pub struct Index {
    rows: [IndexRow; CHUNKS],
    count: usize,
}

impl Index {
    /// The rows in use, in order.
    pub fn rows(&self) -> &[IndexRow] {
        self.rows.get(..self.count).unwrap_or_default()
    }

    /// Puts a row after the last; one more than there are chunks finds no room.
    pub fn put_last(&mut self, row: IndexRow) {
        if let Some(place) = self.rows.get_mut(self.count) {
            *place = row;
            self.count += 1;
        }
    }
}

impl FromIterator<IndexRow> for Index {
    fn from_iter<I: IntoIterator<Item = IndexRow>>(rows: I) -> Index {
        let mut index = Index::default();
        rows.into_iter().for_each(|row| index.put_last(row));
        index
    }
}

impl Tables {
    /// The rows of the live chunks, in the chain's order.
    pub fn live_rows(&self) -> Index {
        let row = |chunk: ChunkNo| {
            let Chunk { min, .. } = *self.chunks.get(chunk)?;
            Some(IndexRow { min, chunk })
        };
        self.chain().filter_map(row).collect()
    }

    /// Index: the rows become exactly those of the live chunks.
    pub(crate) fn make_index(&mut self, old: ChunkNo, new: ChunkNo, second: Option<ChunkNo>) -> Report {
        self.index = self.live_rows();
        self.rebalance = Rebalance::Release(old, new, second);
        Report::MovedOn
    }

    /// The rows ascend, and each names a live or retired chunk and has its minimum key.
    pub(crate) fn index_fits(&self) -> bool {
        let rows = self.index.rows();
        let ascend = rows.windows(2).all(|pair| pair[0].min < pair[1].min);
        ascend && rows.iter().all(|row| self.row_fits(row))
    }

    fn row_fits(&self, row: &IndexRow) -> bool {
        let in_place = |chunk: &Chunk| matches!(chunk.status, Status::Live | Status::Retired) && chunk.min == row.min;
        self.chunks.get(row.chunk).is_some_and(in_place)
    }
}
