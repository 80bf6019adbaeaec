//! A reader of sheets, written from document 01 apart from the library. A refusal is its number.

use crate::content::{Content, Settings, MAX_LIMIT, MAX_ROOM, MAX_SETTINGS, MAX_TRIANGLES, MAX_VERTICES, REACH};

/// The content of a sheet. By section: 1 if its count is cut short, 2, 3, 1, then each number in turn; leftover bytes; missing settings.
pub fn read(sheet: &[u8]) -> Result<Content, u32> {
    let mut rest = Rest(sheet);
    let mut content = Content::default();
    let n = rest.count()?;
    over(n, MAX_VERTICES)?;
    for x in rest.items(2 * n)? {
        content.vertices.push(coordinate(f64::from_le_bytes(x))?);
    }
    let t = rest.count()?;
    over(t, MAX_TRIANGLES)?;
    for v in rest.items(3 * t)? {
        content.triangles.push(vertex(u32::from_le_bytes(v), n)?);
    }
    unlike(rest.count()?, 3 * t)?;
    for k in rest.items(3 * t)? {
        content.neighbours.push(neighbour(i32::from_le_bytes(k), t)?);
    }
    unlike(rest.count()?, n)?;
    for [k] in rest.items(n)? {
        content.tags.push(tag(k)?);
    }
    let m = rest.count()?;
    over(m, MAX_SETTINGS)?;
    content.settings = settings(rest.items(m)?)?;
    if !rest.0.is_empty() {
        return Err(1);
    }
    missing(&content.settings)?;
    Ok(content)
}

/// What is left of a sheet.
struct Rest<'a>(&'a [u8]);

impl<'a> Rest<'a> {
    fn take(&mut self, bytes: usize) -> Result<&'a [u8], u32> {
        let (front, rest) = self.0.split_at_checked(bytes).ok_or(1u32)?;
        self.0 = rest;
        Ok(front)
    }

    fn count(&mut self) -> Result<usize, u32> {
        let bytes = self.take(4)?.try_into().unwrap();
        Ok(u32::from_le_bytes(bytes) as usize)
    }

    /// The next items, of SIZE bytes each.
    fn items<const SIZE: usize>(&mut self, count: usize) -> Result<impl Iterator<Item = [u8; SIZE]> + 'a, u32> {
        let all = self.take(SIZE * count)?;
        Ok(all.chunks_exact(SIZE).map(|item| item.try_into().unwrap()))
    }
}

// ---- counts and numbers, one by one

pub fn over(count: usize, most: usize) -> Result<(), u32> {
    if count > most {
        return Err(2);
    }
    Ok(())
}

pub fn unlike(count: usize, expected: usize) -> Result<(), u32> {
    if count != expected {
        return Err(3);
    }
    Ok(())
}

pub fn vertex(v: u32, n: usize) -> Result<u32, u32> {
    if v as usize >= n {
        return Err(4);
    }
    Ok(v)
}

pub fn neighbour(k: i32, t: usize) -> Result<i32, u32> {
    if k < -1 || k >= t as i32 {
        return Err(4);
    }
    Ok(k)
}

pub fn tag(k: u8) -> Result<u8, u32> {
    if k > 2 {
        return Err(4);
    }
    Ok(k)
}

fn real(x: f64, in_range: bool) -> Result<f64, u32> {
    if x.is_nan() {
        return Err(6);
    }
    if x.is_infinite() || !in_range {
        return Err(7);
    }
    Ok(x)
}

pub fn coordinate(x: f64) -> Result<f64, u32> {
    real(x, x.abs() <= REACH)
}

fn whole(v: u64, low: u64, high: u64) -> Result<u64, u32> {
    if v < low || v > high {
        return Err(7);
    }
    Ok(v)
}

/// Puts a setting of a known kind down.
pub fn put(settings: &mut Settings, kind: u8, value: u64) -> Result<(), u32> {
    let x = f64::from_bits(value);
    match kind {
        1 => settings.limit = Some(whole(value, 0, MAX_LIMIT)?),
        2 => settings.tolerance = Some(real(x, true)?),
        3 => settings.step = Some(real(x, x > 0.0)?),
        4 => settings.x = Some(coordinate(x)?),
        5 => settings.y = Some(coordinate(x)?),
        6 => settings.room = Some(whole(value, 1, MAX_ROOM)?),
        _ => return Err(5),
    }
    Ok(())
}

fn settings(items: impl Iterator<Item = [u8; 9]>) -> Result<Settings, u32> {
    let mut settings = Settings::default();
    let mut last = 0;
    for [kind, value @ ..] in items {
        if kind <= last {
            return Err(5);
        }
        put(&mut settings, kind, u64::from_le_bytes(value))?;
        last = kind;
    }
    Ok(settings)
}

/// A step and a room are present, and a start's x and y together.
pub fn missing(settings: &Settings) -> Result<(), u32> {
    if settings.step.is_none() || settings.room.is_none() || settings.x.is_some() != settings.y.is_some() {
        return Err(5);
    }
    Ok(())
}
