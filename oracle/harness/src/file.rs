//! The layout file of document 01, and in form 2 that of 02 (E7), as raw numbers. Nothing but its trailer is judged here.

#[derive(Clone, Copy, Default)]
pub struct Entry {
    pub kind: u8,
    pub columns: u8,
    pub rows: u8,
    pub zero3: u8,
    pub reference: u16,
    pub zero6: u16,
    pub count: u32,
}

#[derive(Clone, Copy, Default)]
pub struct Member {
    pub ty: u16,
    pub flags: u16,
    pub size: u32,
    pub align: u32,
    /// form 2 has it, 0 for none
    pub name: u32,
}

#[derive(Clone, Default)]
pub struct Table {
    pub entries: Vec<Entry>,
    pub members: Vec<Member>,
}

fn u16_at(b: &[u8], at: usize) -> u16 {
    u16::from_le_bytes([b[at], b[at + 1]])
}

fn u32_at(b: &[u8], at: usize) -> u32 {
    u32::from_le_bytes([b[at], b[at + 1], b[at + 2], b[at + 3]])
}

impl Table {
    /// The table of a file, or the refusal of its trailer, 1 to 4.
    pub fn read(b: &[u8]) -> Result<Table, u32> {
        if b.len() < 10 {
            return Err(1);
        }
        let trailer = &b[b.len() - 10..];
        let (types, members) = (u16_at(trailer, 0) as usize, u16_at(trailer, 2) as usize);
        let start = u32_at(trailer, 4) as usize;
        let named = match u16_at(trailer, 8) {
            1 => false,
            2 => true,
            _ => return Err(2),
        };
        let long = if named { 16 } else { 12 };
        if !(1..=256).contains(&types) || members > 1024 {
            return Err(3);
        }
        if b.len() != start + 12 * types + long * members + 10 {
            return Err(4);
        }
        let entry = |k: usize| {
            let e = &b[start + 12 * k..];
            Entry {
                kind: e[0],
                columns: e[1],
                rows: e[2],
                zero3: e[3],
                reference: u16_at(e, 4),
                zero6: u16_at(e, 6),
                count: u32_at(e, 8),
            }
        };
        let member = |k: usize| {
            let m = &b[start + 12 * types + long * k..];
            let name = if named { u32_at(m, 12) } else { 0 };
            Member { ty: u16_at(m, 0), flags: u16_at(m, 2), size: u32_at(m, 4), align: u32_at(m, 8), name }
        };
        Ok(Table { entries: (0..types).map(entry).collect(), members: (0..members).map(member).collect() })
    }

    /// The file of a table, after `before` bytes that no one looks at. It has form 1, and no names.
    pub fn write(&self, before: &[u8]) -> Vec<u8> {
        self.write_as(1, before)
    }

    /// The file in form 1 or 2.
    pub fn write_as(&self, form: u16, before: &[u8]) -> Vec<u8> {
        let mut b = before.to_vec();
        for e in &self.entries {
            b.extend([e.kind, e.columns, e.rows, e.zero3]);
            b.extend(e.reference.to_le_bytes());
            b.extend(e.zero6.to_le_bytes());
            b.extend(e.count.to_le_bytes());
        }
        for m in &self.members {
            b.extend(m.ty.to_le_bytes());
            b.extend(m.flags.to_le_bytes());
            b.extend(m.size.to_le_bytes());
            b.extend(m.align.to_le_bytes());
            if form == 2 {
                b.extend(m.name.to_le_bytes());
            }
        }
        b.extend((self.entries.len() as u16).to_le_bytes());
        b.extend((self.members.len() as u16).to_le_bytes());
        b.extend((before.len() as u32).to_le_bytes());
        b.extend(form.to_le_bytes());
        b
    }

    /// The members that a struct entry names, where all of them are within the table.
    pub fn members_of(&self, e: &Entry) -> Option<&[Member]> {
        let (first, count) = (e.reference as usize, e.count as usize);
        self.members.get(first..first.checked_add(count)?)
    }
}
