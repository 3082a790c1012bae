//! The tables and the flag methods.

use std::io::{self, Write};

use crate::list::List;
use crate::operations;
use crate::words::{opcodes, STRAYS};

const BYTES: [u8; 17] =
    [0x00, 0x01, 0x02, 0x03, 0x04, 0x05, 0x07, 0x08, 0x0F, 0x10, 0x20, 0x40, 0x7F, 0x80, 0x81, 0xF0, 0xFF];

pub fn words(list: &mut List<impl Write>) -> io::Result<()> {
    list.remark("opcode: every byte; forty are an operation's")?;
    opcodes(list)?;

    list.remark("name: the forty names")?;
    operations::all().try_for_each(|op| list.name(op.into()))?;
    list.remark("name: texts near a name, some of them another's")?;
    for (i, op) in operations::all().enumerate() {
        let name: &str = op.into();
        list.name(&match i % 8 {
            0 => name.to_lowercase(),
            1 => format!("{name} "),
            2 => format!(" {name}"),
            3 => name[1..].to_string(),
            4 => name[..name.len() - 1].to_string(),
            5 => format!("{name}I"),
            6 => format!("{name}\0"),
            _ => format!("{}{}", &name[..1], name[1..].to_lowercase()),
        })?;
    }
    list.remark("name: texts that are no operation's")?;
    STRAYS.iter().try_for_each(|text| list.name(text))?;
    for text in ["CALLS", "STORES", "STORER", "PRINTPRINT", "É", "JN", "A", "ADDADDADDADDADDADD"] {
        list.name(text)?;
    }

    list.remark("flags: bits set, cleared, asked for; Z and N updated by a result")?;
    for flags in BYTES {
        BYTES.iter().try_for_each(|&byte| list.flags(flags, byte))?;
    }
    Ok(())
}
