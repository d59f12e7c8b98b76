//! Needs that are not small, and the donor: tables with and without small bins, both sides of what the donor can spare,
//! and each call that can grant from it.

use super::Script;
use second::Call;

/// Bins of which two are small, and tables without a small bin (m = 0).
const TABLES: [&[u32]; 3] = [&[24, 32, 40, 128], &[24], &[24, 40]];

impl Script {
    /// The heap has 256 bytes. The donor has 80, of which it can spare 56; the blocks at 96 and 136 leave the top 48,
    /// of which it can spare 24.
    fn little_top(&mut self, name: &str, table: &[u32]) {
        self.heap(&format!("{name}, bins {table:?}"), 64, table, 80);
        for z in [32, 64] {
            self.call(Call::Allocate { z });
        }
        self.call(Call::Check);
    }

    pub(super) fn donors(&mut self) {
        for table in TABLES {
            self.little_top("a large need from the donor", table);
            for z in [49, 48, 32] {
                self.call(Call::Allocate { z });
            }
            self.call(Call::Check);
            self.little_top("a cleared block from the donor", table);
            for count in [7, 6] {
                self.call(Call::AllocateCleared { count, size: 8 });
            }
            self.call(Call::Check);
            self.little_top("a block moves into the donor", table);
            for z in [49, 48] {
                self.call(Call::Reallocate { block: 96, z });
            }
            self.call(Call::Check);
            self.little_top("the donor is left alone while a bin has a chunk", table);
            self.call(Call::Free { block: 96 });
            for _ in 0..2 {
                self.call(Call::Allocate { z: 32 });
            }
            self.call(Call::Check);
        }
    }
}
