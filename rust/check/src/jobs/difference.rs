//! A text held to the right one.

/// The first line in which they differ, counted from 0 and its newline included, and how.
pub fn first_difference(given: &[u8], right: &[u8]) -> Option<(usize, String)> {
    let lines = |text| <[u8]>::split_inclusive(text, |&byte| byte == b'\n');
    let given: Vec<&[u8]> = lines(given).collect();
    let right: Vec<&[u8]> = lines(right).collect();
    let count = given.len().max(right.len());
    let i = (0..count).find(|&i| given.get(i) != right.get(i))?;
    let text = |line: Option<&&[u8]>| match line {
        Some(line) => format!("{:?}", String::from_utf8_lossy(line)),
        None => "missing".to_string(),
    };
    let (given, right) = (text(given.get(i)), text(right.get(i)));
    Some((i, format!("is {given}; right is {right}")))
}
