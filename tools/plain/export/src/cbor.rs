//! DAG-CBOR: a reader's place in a block, and the test of a whole value.

pub struct Cursor<'f>(pub &'f [u8]);

pub type Fault = &'static str;

impl<'f> Cursor<'f> {
    pub fn head(&mut self) -> Result<(u8, u64), Fault> {
        let (&first, rest) = self.0.split_first().ok_or("Truncated")?;
        let (kind, low) = (first >> 5, first & 31);
        if kind == 7 {
            self.0 = rest;
            return match low {
                20..=22 => Ok((7, u64::from(low))),
                25..=27 => Err("Float"),
                31 => Err("Indefinite"),
                _ => Err("Simple"),
            };
        }
        let size = match low {
            0..24 => {
                self.0 = rest;
                return Ok((kind, u64::from(low)));
            }
            24..28 => 1usize << (low - 24),
            31 => return Err("Indefinite"),
            _ => return Err("LongHead"),
        };
        let (bytes, rest) = rest.split_at_checked(size).ok_or("Truncated")?;
        let number = bytes.iter().fold(0u64, |n, &b| n << 8 | u64::from(b));
        if number < [24, 1 << 8, 1 << 16, 1 << 32][usize::from(low) - 24] {
            return Err("LongHead");
        }
        self.0 = rest;
        Ok((kind, number))
    }

    pub fn take(&mut self, count: u64) -> Result<&'f [u8], Fault> {
        let count = usize::try_from(count).map_err(|_| "Truncated")?;
        let (taken, rest) = self.0.split_at_checked(count).ok_or("Truncated")?;
        self.0 = rest;
        Ok(taken)
    }

    pub fn exactly(&mut self, wanted: &[u8]) -> Option<()> {
        self.0 = self.0.strip_prefix(wanted)?;
        Some(())
    }

    pub fn argument(&mut self, kind: u8) -> Option<u64> {
        self.head().ok().filter(|head| head.0 == kind).map(|head| head.1)
    }

    pub fn string(&mut self, kind: u8) -> Option<&'f [u8]> {
        let count = self.argument(kind)?;
        self.take(count).ok()
    }

    fn text(&mut self, count: u64) -> Result<&'f str, Fault> {
        std::str::from_utf8(self.take(count)?).map_err(|_| "BadUtf8")
    }

    fn begins(&self, kind: u8, fault: Fault) -> Result<(), Fault> {
        match self.0.first() {
            None => Err("Truncated"),
            Some(first) if first >> 5 != kind => Err(fault),
            Some(_) => Ok(()),
        }
    }

    pub fn value(&mut self, level: usize) -> Result<(), Fault> {
        let (kind, number) = self.head()?;
        match kind {
            0 | 1 if number >= 1 << 63 => Err("IntegerRange"),
            0 | 1 | 7 => Ok(()),
            2 => self.take(number).map(drop),
            3 => self.text(number).map(drop),
            4 | 5 if level > 64 => Err("TooDeep"),
            4 => (0..number).try_for_each(|_| self.value(level + 1)),
            5 => self.fields(number, level),
            _ if number != 42 => Err("BadTag"),
            _ => self.link(),
        }
    }

    fn fields(&mut self, count: u64, level: usize) -> Result<(), Fault> {
        let mut last: Option<&str> = None;
        for _ in 0..count {
            self.begins(3, "KeyNotText")?;
            let (_, length) = self.head()?;
            let key = self.text(length)?;
            if last.is_some_and(|last| (last.len(), last) >= (key.len(), key)) {
                return Err("KeyOrder");
            }
            last = Some(key);
            self.value(level + 1)?;
        }
        Ok(())
    }

    fn link(&mut self) -> Result<(), Fault> {
        self.begins(2, "BadLink")?;
        let (_, length) = self.head()?;
        match self.take(length)?.split_first() {
            Some((0, cid)) if is_cid(cid) => Ok(()),
            _ => Err("BadLink"),
        }
    }
}

fn is_cid(cid: &[u8]) -> bool {
    if cid.len() == 34 && cid[..2] == [0x12, 0x20] {
        return true;
    }
    let Some((1, mut rest)) = cid.split_first().map(|(version, rest)| (*version, rest)) else {
        return false;
    };
    let mut number = || {
        let mut number = 0u64;
        for i in 0..9 {
            let (&byte, behind) = rest.split_first()?;
            rest = behind;
            number |= u64::from(byte & 127) << (7 * i);
            if byte < 128 {
                return (i == 0 || byte != 0).then_some(number);
            }
        }
        None
    };
    let (Some(_), Some(_), Some(length)) = (number(), number(), number()) else {
        return false;
    };
    rest.len() as u64 == length
}

/// Whether these bytes are a record: at most 1,048,576 bytes, of which all are one map.
pub fn is_record(bytes: &[u8]) -> Result<(), String> {
    if bytes.len() > 1_048_576 {
        return Err("RecordSize".into());
    }
    let mut cursor = Cursor(bytes);
    let read = cursor.value(1).and_then(|()| if cursor.0.is_empty() { Ok(()) } else { Err("Trailing") });
    read.map_err(|name| format!("BadRecord({name})"))?;
    if bytes[0] >> 5 == 5 { Ok(()) } else { Err("NotAMap".into()) }
}
