//! Groups, their items, and the numbers among these.

/// Most numbers of a list.
const MOST_NUMBERS: usize = 32;

/// The groups between `;`, of which there have to be just so many.
pub fn groups<const COUNT: usize>(text: &[u8]) -> Option<[&[u8]; COUNT]> {
    let groups: Vec<&[u8]> = text.split(|&byte| byte == b';').collect();
    groups.try_into().ok()
}

/// The items of a group, which stand between blanks.
pub fn items(group: &[u8]) -> impl Iterator<Item = &[u8]> {
    let between = group.split(|&byte| byte == b' ');
    between.filter(|item| !item.is_empty())
}

/// The items of a group that has to have just so many.
pub fn fixed<const COUNT: usize>(group: &[u8]) -> Option<[&[u8]; COUNT]> {
    let items: Vec<&[u8]> = items(group).collect();
    items.try_into().ok()
}

/// A group that is a list of unsigned 32-bit numbers.
pub fn list(group: &[u8]) -> Option<Vec<u32>> {
    let list: Vec<u32> = items(group).map(number).collect::<Option<_>>()?;
    (list.len() <= MOST_NUMBERS).then_some(list)
}

/// An unsigned 32-bit number.
pub fn number(item: &[u8]) -> Option<u32> {
    digits(item)?.try_into().ok()
}

/// A signed 64-bit number.
pub fn signed(item: &[u8]) -> Option<i64> {
    match item.strip_prefix(b"-") {
        Some(item) => 0_i64.checked_sub_unsigned(digits(item)?),
        None => digits(item)?.try_into().ok(),
    }
}

/// Decimal digits, at least one.
fn digits(item: &[u8]) -> Option<u64> {
    if item.is_empty() {
        return None;
    }
    item.iter().try_fold(0_u64, |value, byte| match byte {
        b'0'..=b'9' => value.checked_mul(10)?.checked_add(u64::from(byte - b'0')),
        _ => None,
    })
}
