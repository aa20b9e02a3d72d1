//! A plain reading pass: refusals 1 to 9 and 19, every ceiling, one loop over a slice
//! with a position, nothing allocated. What one would write in Rust without
//! proofs; the measure for the proved pass.
use crate::reader::*;

/// The count of records, or a refusal.
pub type Answer = Result<u32, Refusal>;

pub fn read(stream: &[u8]) -> Answer {
    let mut reader = Reader::new(stream)?;
    while !reader.at_end() {
        if let Err(number) = reader.check_field() {
            return Err((number, reader.record));
        }
    }
    Ok(reader.record)
}

impl Reader<'_> {
    fn check_indices(&mut self, count: u32) -> Step<()> {
        for _ in 0..count {
            self.index()?;
        }
        Ok(())
    }

    fn check_value_types(&mut self, ceiling: u32) -> Step<()> {
        for _ in 0..self.up_to(ceiling, 7)? {
            self.value_type()?;
        }
        Ok(())
    }

    fn check_variables(&mut self, ceiling: u32) -> Step<()> {
        for _ in 0..self.up_to(ceiling, 7)? {
            self.identifier()?;
            self.value_type()?;
        }
        Ok(())
    }

    fn check_type_use(&mut self) -> Step<()> {
        self.optional_index()?;
        self.check_variables(PARAMETERS)?;
        self.check_value_types(RESULTS)
    }

    fn check_field(&mut self) -> Step<()> {
        if self.check_record()? {
            self.check_body()?;
        }
        Ok(())
    }

    /// A field record; of an own function, what stands before its body. Says whether
    /// one follows.
    pub fn check_record(&mut self) -> Step<bool> {
        let mut has_body = false;
        match self.field_byte()? {
            0x01 => {
                self.item(TYPE)?;
                self.identifier()?;
                self.check_value_types(PARAMETERS)?;
                self.check_value_types(RESULTS)?;
            }
            0x02 => {
                self.two_strings()?;
                let kind = self.form(3)?;
                self.item(kind as usize)?;
                self.identifier()?;
                match kind {
                    0 => self.check_type_use()?,
                    1 => self.table_type().map(|_| ())?,
                    2 => self.limits().map(|_| ())?,
                    _ => self.global_type().map(|_| ())?,
                }
            }
            0x03 => {
                let form = self.check_head(FUNC, 1)?;
                self.check_type_use()?;
                has_body = form == 0;
                if has_body {
                    self.check_variables(LOCALS)?;
                }
            }
            0x04 => {
                if self.check_head(TABLE, 2)? < 2 {
                    self.table_type()?;
                } else {
                    self.item(ELEM)?;
                    self.is_64_bit()?;
                    let count = self.up_to(INDICES, 7)?;
                    self.check_indices(count)?;
                }
            }
            0x05 => {
                if self.check_head(MEMORY, 2)? < 2 {
                    self.limits()?;
                } else {
                    self.item(DATA)?;
                    self.is_64_bit()?;
                    self.data()?;
                }
            }
            0x06 => {
                let form = self.check_head(GLOBAL, 1)?;
                self.global_type()?;
                if form == 0 {
                    self.constant()?;
                }
            }
            0x07 => {
                self.string()?;
                self.form(3)?;
                self.index()?;
            }
            0x08 => {
                self.start()?;
            }
            0x09 => {
                self.item(ELEM)?;
                self.identifier()?;
                self.place()?;
                let count = self.up_to(INDICES, 7)?;
                self.check_indices(count)?;
            }
            _ => {
                self.item(DATA)?;
                self.identifier()?;
                self.place()?;
                self.data()?;
            }
        }
        self.record += 1;
        Ok(has_body)
    }

    /// Identifier, exports, form, and the two strings of form 1.
    fn check_head(&mut self, space: usize, last: u8) -> Step<u8> {
        self.item(space)?;
        self.identifier()?;
        for _ in 0..self.up_to(EXPORTS, 7)? {
            self.string()?;
        }
        let form = self.form(last)?;
        if form == 1 {
            self.two_strings()?;
        }
        Ok(form)
    }

    fn check_bulk(&mut self) -> Step<()> {
        let second = self.bulk()?;
        if matches!(second, MEMORY_INIT | DATA_DROP) {
            self.index()?;
        }
        if second == MEMORY_COPY {
            self.optional_index()?;
        }
        if second != DATA_DROP {
            self.optional_index()?;
        }
        Ok(())
    }

    fn check_body(&mut self) -> Step<()> {
        loop {
            match self.opcode()? {
                0xFF => {
                    self.record += 1;
                    return Ok(());
                }
                FOLDED => self.check_folded(1)?,
                opcode => {
                    self.check_instruction(opcode)?;
                    self.record += 1;
                }
            }
        }
    }

    /// After F0, nested so deep: the operator, a count, and operands.
    fn check_folded(&mut self, nesting: u32) -> Step<()> {
        let opcode = self.operator(nesting)?;
        self.check_instruction(opcode)?;
        let count = self.up_to(OPERANDS, 7)?;
        self.record += 1;
        for _ in 0..count {
            self.operand()?;
            self.check_folded(nesting + 1)?;
        }
        Ok(())
    }

    #[inline]
    pub fn check_instruction(&mut self, opcode: u8) -> Step<()> {
        match opcode {
            0x02..=0x04 => {
                self.identifier()?;
                self.check_type_use()
            }
            0x05 | 0x0B => self.identifier().map(|_| ()),
            0x0C | 0x0D | 0x10 | 0x20..=0x24 | 0xD2 => self.index().map(|_| ()),
            0x0E => {
                let count = self.up_to(INDICES, 7)?;
                self.check_indices(count + 1)
            }
            0x11 => {
                self.optional_index()?;
                self.check_type_use()
            }
            0x28..=0x3E => {
                self.form(ALIGNMENT)?;
                self.u32()?;
                self.optional_index().map(|_| ())
            }
            0x3F | 0x40 => self.optional_index().map(|_| ()),
            0x41 => self.u32().map(|_| ()),
            0x42 => self.u64().map(|_| ()),
            0x43 => self.raw(4).map(|_| ()),
            0x44 => self.raw(8).map(|_| ()),
            0xD0 => self.reference().map(|_| ()),
            0xFC => self.check_bulk(),
            _ => Ok(()),
        }
    }
}
