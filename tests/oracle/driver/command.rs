//! Command files: bytes to commands.

pub const REGISTERS: usize = 16;
pub const LONGEST_FILE: usize = 65_536;
pub const VALUE_BYTES: usize = 18;

pub enum Command {
    New { nursery: u16, threshold: u16, slots: u16, cells: u16 },
    Alloc { to: usize, amount: i64 },
    Set { to: usize, value: [u8; VALUE_BYTES] },
    Load { to: usize, pointer: usize, added: i64 },
    Store { from: usize, pointer: usize, added: i64 },
    Report,
    Figure { of: usize },
}

pub struct Reader<'a> {
    rest: &'a [u8],
}

impl<'a> Reader<'a> {
    pub fn new(file: &'a [u8]) -> Self {
        Self { rest: file }
    }

    pub fn at_end(&self) -> bool {
        self.rest.is_empty()
    }

    /// The next command, or `None` where question 12 gets a no.
    pub fn next(&mut self) -> Option<Command> {
        let [code] = self.bytes()?;
        Some(match code {
            0x4E => Command::New {
                nursery: self.u16()?,
                threshold: self.u16()?,
                slots: self.u16()?,
                cells: self.u16()?,
            },
            0x41 => Command::Alloc { to: self.register()?, amount: self.i64()? },
            0x56 => Command::Set { to: self.register()?, value: self.bytes()? },
            0x4C => Command::Load { to: self.register()?, pointer: self.register()?, added: self.i64()? },
            0x53 => Command::Store { from: self.register()?, pointer: self.register()?, added: self.i64()? },
            0x52 => Command::Report,
            0x46 => Command::Figure { of: self.register()? },
            _ => return None,
        })
    }

    fn bytes<const COUNT: usize>(&mut self) -> Option<[u8; COUNT]> {
        let (bytes, rest) = self.rest.split_first_chunk()?;
        self.rest = rest;
        Some(*bytes)
    }

    fn register(&mut self) -> Option<usize> {
        let [number] = self.bytes()?;
        Some(usize::from(number)).filter(|&number| number < REGISTERS)
    }

    fn u16(&mut self) -> Option<u16> {
        self.bytes().map(u16::from_le_bytes)
    }

    fn i64(&mut self) -> Option<i64> {
        self.bytes().map(i64::from_le_bytes)
    }
}
