//! The sheet of a content, and what refuses a content: written from document 01 apart from the library.

use crate::content::{Content, Settings, MAX_TRIANGLES, MAX_VERTICES};
use crate::reader::{coordinate, missing, neighbour, over, put, tag, unlike, vertex};

/// The bytes of a content, whatever it is. A list's count is that of its whole items.
pub fn bytes(content: &Content) -> Vec<u8> {
    let mut out = Vec::new();
    count(&mut out, content.n());
    content.vertices.iter().for_each(|x| out.extend(x.to_le_bytes()));
    count(&mut out, content.t());
    content.triangles.iter().for_each(|v| out.extend(v.to_le_bytes()));
    count(&mut out, content.neighbours.len());
    content.neighbours.iter().for_each(|k| out.extend(k.to_le_bytes()));
    count(&mut out, content.tags.len());
    out.extend(&content.tags);
    let present = content.settings.present();
    count(&mut out, present.len());
    for (kind, value) in present {
        out.push(kind);
        out.extend(value.to_le_bytes());
    }
    out
}

fn count(out: &mut Vec<u8>, k: usize) {
    out.extend((k as u32).to_le_bytes());
}

/// A content under the reader's conditions, in the reader's order. Lists that do not agree are refused where the count of their section is,
/// and so are vertices that are no pairs and triangles that are no triples.
pub fn check(content: &Content) -> Result<(), u32> {
    let (n, t) = (content.n(), content.t());
    over(n, MAX_VERTICES)?;
    unlike(content.vertices.len(), 2 * n)?;
    content.vertices.iter().try_for_each(|x| coordinate(*x).map(drop))?;
    over(t, MAX_TRIANGLES)?;
    unlike(content.triangles.len(), 3 * t)?;
    content.triangles.iter().try_for_each(|v| vertex(*v, n).map(drop))?;
    unlike(content.neighbours.len(), 3 * t)?;
    content.neighbours.iter().try_for_each(|k| neighbour(*k, t).map(drop))?;
    unlike(content.tags.len(), n)?;
    content.tags.iter().try_for_each(|k| tag(*k).map(drop))?;
    let mut settings = Settings::default();
    content.settings.present().iter().try_for_each(|(kind, value)| put(&mut settings, *kind, *value))?;
    missing(&content.settings)
}
