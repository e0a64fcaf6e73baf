//! The bytes of fleet books and sheets, for the comparison and the benchmark.

/// The bytes of a fleet book with these rows.
pub fn book_of(rows: &[Vec<i16>]) -> Vec<u8> {
    let mut file: Vec<u8> = rows.iter().flatten().flat_map(|v| v.to_le_bytes()).collect();
    let back = file.len() as u32;
    file.extend_from_slice(&back.to_le_bytes());
    file.extend_from_slice(&(rows.len() as u16).to_le_bytes());
    file.extend_from_slice(&(rows[0].len() as u16).to_le_bytes());
    file.extend_from_slice(b"WBK1");
    file
}

/// The bytes of a sheet, WSH2 where factors are given.
pub fn sheet_of(target: &[i16], factors: Option<&[u8]>, steps: u16, tolerance: u32) -> Vec<u8> {
    let mut file: Vec<u8> = target.iter().flat_map(|v| v.to_le_bytes()).collect();
    file.extend_from_slice(factors.unwrap_or_default());
    let back = file.len() as u32;
    file.extend_from_slice(&back.to_le_bytes());
    file.extend_from_slice(&(target.len() as u16).to_le_bytes());
    file.extend_from_slice(&steps.to_le_bytes());
    file.extend_from_slice(&tolerance.to_le_bytes());
    file.extend_from_slice(if factors.is_some() { b"WSH2" } else { b"WSH1" });
    file
}
