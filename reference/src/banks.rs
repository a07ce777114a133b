//! The banks as they are lent: the store, the size sheet and the fixed sheet (C-13). Their rules, and a bank's used cells.

use crate::refusal::Refusal;

pub const STORE: usize = 10_240;
pub const SHEET: usize = 256;
pub const FIXED: usize = 40;

/// The most cells of a bank, and how far the banks lie apart in the store.
pub const CELLS: usize = 40;

/// C-13: "its byte 1 must be 11", the SUSI version.
pub const VERSION: u8 = 11;

/// Lent to be read.
#[derive(Clone, Copy)]
pub struct Banks<'a> {
    pub store: &'a [u8],
    /// The size sheet.
    pub sheet: &'a [u8],
    /// C-13: "Bank 254 moves to a 40-byte sheet that the caller lends beside the store".
    pub fixed: &'a [u8],
}

impl<'a> Banks<'a> {
    /// C-13: "the used cells of a bank as a part of the caller's own sheet for 254, and of the store for any other. A
    /// size of 0 and every refusal give an empty part".
    pub fn view(self, bank: u8) -> &'a [u8] {
        if self.check().is_err() {
            return &self.store[..0];
        }
        branch!("view of {}", if bank == 254 { "the fixed sheet" } else { "the store" });
        self.used(bank)
    }

    /// C-13: "a separate check gives the refusal's number".
    pub fn check(self) -> Result<(), Refusal> {
        if !self.wrong_lengths().is_empty() {
            branch!("view refuses 4");
            return Err(Refusal::Length);
        }
        if !self.broken_rules().is_empty() {
            branch!("view refuses 5");
            return Err(Refusal::Sheet);
        }
        Ok(())
    }

    /// The used cells of a bank, of sheets that are in order.
    pub fn used(self, bank: u8) -> &'a [u8] {
        let size = self.sheet[bank as usize] as usize;
        match bank {
            254 => &self.fixed[..size],
            _ => &self.store[CELLS * bank as usize..][..size],
        }
    }

    /// Whose length row 4 refuses.
    pub fn wrong_lengths(self) -> Vec<&'static str> {
        let mut wrong = Vec::new();
        let mut rule = |bad: bool, name| {
            if bad {
                wrong.push(name)
            }
        };
        rule(self.store.len() != STORE, "store");
        rule(self.sheet.len() != SHEET, "sheet");
        rule(self.fixed.len() != FIXED, "fixed");
        wrong
    }

    /// The rules of both sheets that row 5 finds broken.
    pub fn broken_rules(self) -> Vec<&'static str> {
        let size = |bank: usize| self.sheet.get(bank).copied();
        let mut broken = Vec::new();
        let mut rule = |bad: bool, name| {
            if bad {
                broken.push(name)
            }
        };
        rule(self.sheet.iter().any(|&size| size > 40), "a size over 40");
        rule(size(0).is_some_and(|size| size < 2), "bank 0 under 2");
        rule(size(1).is_some_and(|size| size < 2), "bank 1 under 2");
        rule(size(251).is_some_and(|size| size != 0), "bank 251 not 0");
        rule(size(252).is_some_and(|size| size != 0), "bank 252 not 0");
        rule(size(253).is_some_and(|size| size != 0), "bank 253 not 0");
        rule(size(254).is_some_and(|size| size < 2), "bank 254 under 2");
        rule(size(254).is_some_and(|size| size > 2), "bank 254 over 2");
        rule(self.fixed.get(1).is_some_and(|&version| version != VERSION), "byte 1 of the fixed sheet not 11");
        broken
    }
}
